//! The comparison with the Rust catches every slip, and finds nothing in the model without one.
use comparison::compare::compare;
use comparison::{Calls, Kind, model};
use slips::{
    REFUSING, REFUSING_SLIPS, SLIPPED_SOUND, SLIPPED_USES, SOUND_SLIPS, Slip, USE_SLIPS, of_blocks,
};

/// Runs of each block, and the seed of their inputs.
const RUNS: u64 = 4000;
const SEED: u64 = 3;

#[test]
fn the_model_without_a_slip_differs_nowhere() {
    for kind in Kind::ALL {
        let tally = compare(&model::CALLS, kind, RUNS, SEED);
        assert!(tally.calls() > 0);
        assert_eq!(tally.differences, Vec::<String>::new());
    }
}

/// The slips of all tables but the sheet's and that of rounding, each with its calls.
fn all() -> Vec<(&'static Slip, &'static Calls)> {
    let sound = SOUND_SLIPS.iter().zip(&SLIPPED_SOUND);
    let refusing = REFUSING_SLIPS.iter().zip(&REFUSING);
    let uses = USE_SLIPS.iter().zip(&SLIPPED_USES);
    let others = sound.chain(refusing).chain(uses);
    of_blocks().chain(others).collect()
}

#[test]
fn every_slip_is_caught() {
    let mut missed = vec![];
    for (slip, calls) in all() {
        let kind = Kind::named(slip.block).expect("a block has this name");
        let tally = compare(calls, kind, RUNS, SEED);
        match tally.differences.first() {
            Some(first) => println!("caught: {}: {first}", slip.name),
            None => missed.push(slip.name),
        }
    }
    println!("{} slips, {} missed", all().len(), missed.len());
    assert!(missed.is_empty(), "missed: {missed:?}");
}
