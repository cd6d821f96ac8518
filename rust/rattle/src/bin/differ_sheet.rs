//! Compares the proved sheet with the model, and with the proved and the published blocks run singly: `differ_sheet SHEETS SEED`.
use comparison::sheets::differ;

fn main() {
    std::process::exit(differ::run(&rattle::SHEETS, &rattle::CALLS));
}
