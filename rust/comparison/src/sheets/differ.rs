//! The program that compares sheets with the model, and with their blocks and the published ones run singly: `SHEETS SEED`.
use crate::Calls;
use crate::sheet::{NO_BLOCK, SheetCalls};
use crate::tally::Tally;

use super::{SheetClass, compare, expected_classes};

/// Compares, prints what was met and found, and gives the exit status.
#[must_use]
pub fn run(subject: &SheetCalls, blocks: &Calls) -> i32 {
    let numbers = std::env::args().skip(1).map(|a| a.parse::<u64>());
    let Ok([sheets, seed]) = <[u64; 2]>::try_from(numbers.flatten().collect::<Vec<_>>()) else {
        eprintln!("usage: SHEETS SEED");
        return 2;
    };
    let tally = compare(subject, blocks, sheets, seed);
    println!("sheets met {}", tally.counts());
    println!("compared: {sheets} sheets, {}", counts(&tally));
    let held = tally.report("sheets", &expected_classes());
    println!("{} passed, {} failed", u64::from(held), u64::from(!held));
    i32::from(!held)
}

/// How many starts and ticks were accepted, and how many refused.
fn counts(tally: &Tally<SheetClass>) -> String {
    let sum = |class: fn(u64) -> SheetClass| -> u64 {
        let refused = (1..=NO_BLOCK).map(|n| tally.count(class(n)));
        refused.sum()
    };
    format!(
        "{} starts and {} refused, {} ticks and {} refused",
        tally.count(SheetClass::Started),
        sum(SheetClass::StartRefused),
        tally.count(SheetClass::Ticked),
        sum(SheetClass::TickRefused),
    )
}
