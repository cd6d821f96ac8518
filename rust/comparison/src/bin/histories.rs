//! Compares what document 01 says over histories with the Rust. `histories N SEED`: N histories of
//! each block that has a wiping tick and of `TrueFalseHold`, and the long runs of the ring.
use comparison::histories::{ring, wiping};
use comparison::model;
use comparison::tally::{Class, Tally};

/// Prints the line of a statement; says whether it held and met what it should.
fn holds(name: &str, cases: u64, tally: &Tally, wanted: &[Class]) -> bool {
    println!("{name}: {cases} cases, {}", tally.line());
    tally.report(name, wanted)
}

fn main() {
    let args: Vec<u64> = std::env::args().skip(1).flat_map(|a| a.parse()).collect();
    let [histories, seed] = args[..] else {
        eprintln!("histories N SEED");
        std::process::exit(2);
    };
    let mut held: Vec<bool> = vec![];
    for kind in wiping::KINDS {
        let tally = wiping::compare(kind, histories, seed);
        let wanted = wiping::expected_classes(kind);
        held.push(holds(&kind.name(), histories, &tally, &wanted));
    }
    let (runs, tally) = ring::compare(&model::CALLS, &ring::WINDOWS, seed);
    held.push(holds("long runs", runs, &tally, &ring::EXPECTED));
    let passed = held.iter().filter(|held| **held).count();
    println!("{passed} passed, {} failed", held.len() - passed);
    std::process::exit(i32::from(passed < held.len()));
}
