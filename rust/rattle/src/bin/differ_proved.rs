//! Compares the proved blocks with the Rust call by call: `differ_proved N SEED [[not] BLOCK]`.
use comparison::differ;

fn main() {
    std::process::exit(differ::run(&rattle::CALLS));
}
