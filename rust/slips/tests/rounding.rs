//! The comparison of leaves catches every slip of rounding, and finds nothing in rounding without one.
use comparison::leaves::differences;
use slips::{ROUNDING_SLIPS, SLIPPED_ROUNDING, rounding};

/// Runs of each leaf, and the seed of their words.
const RUNS: u64 = 4000;
const SEED: u64 = 3;

#[test]
fn rounding_without_a_slip_differs_nowhere() {
    let found = differences(&rounding::LEAVES, RUNS, SEED);
    assert_eq!(found, Vec::<String>::new());
}

/// The leaves that it names show a slip, and no others.
#[test]
fn every_slip_is_caught() {
    for (slip, leaves) in ROUNDING_SLIPS.iter().zip(&SLIPPED_ROUNDING) {
        let found = differences(leaves, RUNS, SEED);
        println!("{}: {found:?}", slip.name);
        let shown: Vec<_> = found.iter().filter_map(|d| d.split(' ').next()).collect();
        assert_eq!(shown.join(" and "), slip.block, "{}", slip.name);
    }
}
