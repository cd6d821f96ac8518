//! Compares the model of document 01 with the Rust call by call: `differ N SEED [[not] BLOCK]`.
use comparison::{differ, model};

fn main() {
    std::process::exit(differ::run(&model::CALLS));
}
