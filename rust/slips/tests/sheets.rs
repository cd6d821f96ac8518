//! The comparison of sheets catches every slip, and finds nothing in the model without one.
use comparison::model;
use comparison::sheet::SheetCalls;
use comparison::sheets::{compare, expected_classes};
use slips::{SHEET_SLIPS, SLIPPED_SHEETS};

/// Sheets, and the seeds of their inputs.
const SHEETS: u64 = 4000;
const SEEDS: [u64; 3] = [3, 4, 5];

#[test]
fn the_model_without_a_slip_differs_nowhere() {
    let tally = compare(&model::sheet::CALLS, &model::CALLS, SHEETS, SEEDS[0]);
    assert!(tally.report("sheets", &expected_classes()));
}

/// What the sheet says or leaves that differs. That a copy panics would tell nothing of the comparison, which ends there: then the next
/// seed must show it.
fn difference(calls: &SheetCalls) -> Option<String> {
    let differences = |seed| compare(calls, &model::CALLS, SHEETS, seed).differences;
    let mut found = SEEDS.into_iter().flat_map(differences);
    found.find(|d| !d.contains(": it panics, on "))
}

#[test]
fn every_slip_is_caught() {
    let mut missed = vec![];
    for (slip, calls) in SHEET_SLIPS.iter().zip(&SLIPPED_SHEETS) {
        match difference(calls) {
            Some(difference) => println!("caught: {}: {difference}", slip.name),
            None => missed.push(slip.name),
        }
    }
    println!("{} slips, {} missed", SHEET_SLIPS.len(), missed.len());
    assert!(missed.is_empty(), "missed, or caught by panics: {missed:?}");
}
