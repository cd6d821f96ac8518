//! Compares start, tick and run of liboven.a with the Rust: `differ_oven CALLS SEED [[not] BLOCK]`.
use comparison::differ;

fn main() {
    std::process::exit(differ::run(&rattle::OVEN_CALLS));
}
