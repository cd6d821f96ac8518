//! Compares sheets, call by call, with the model, with their blocks run singly, and with the published blocks run singly.
//! The inputs depend on the seed alone, not on the calls that are compared.
use std::panic::{UnwindSafe, catch_unwind};

use crate::inputs::Rng;
use crate::sheet::{NO_BLOCK, SheetCalls};
use crate::tally::Tally;
use crate::{Calls, model};

use super::classes::{SheetClass, classes};
use super::singly::PUBLISHED;
use super::{Call, Fault, Left, Sheet, plant};

/// Compares so many sheets, and ends at the first difference.
#[must_use]
pub fn compare(subject: &SheetCalls, blocks: &Calls, sheets: u64, seed: u64) -> Tally<SheetClass> {
    let mut r = Rng::new(seed, 1000);
    let mut sides = Sides {
        subject,
        blocks,
        tally: Tally::default(),
    };
    for n in 0..sheets {
        if let Err(difference) = sides.sheet(&mut r) {
            let whole = format!("sheet {n} of seed {seed}: {difference}");
            sides.tally.differences.push(whole);
            break;
        }
    }
    sides.tally
}

struct Sides<'a> {
    subject: &'a SheetCalls,
    blocks: &'a Calls,
    tally: Tally<SheetClass>,
}

impl Sides<'_> {
    /// A sheet, perhaps a start, then ticks; what is refused changes nothing, and the next call goes on.
    fn sheet(&mut self, r: &mut Rng) -> Result<(), String> {
        let count = any_count(r);
        let mut sheet = Sheet::any(r, count);
        if r.one_in(2) {
            let left = self.call(r, sheet.start(), count)?;
            sheet.go_on(left, sheet.time);
        }
        for _ in 0..1 + r.below(6) {
            let call = sheet.any_tick(r);
            let time = call.tick.map_or(0, |tick| tick.time);
            let left = self.call(r, call, count)?;
            sheet.go_on(left, f64::from_bits(time));
        }
        Ok(())
    }

    /// The call, one in three with faults, on all sides: what it leaves, or how it differs.
    fn call(&mut self, r: &mut Rng, mut call: Call, rows: usize) -> Result<Left, String> {
        let faults = if r.one_in(3) {
            any_faults(r, rows)
        } else {
            vec![]
        };
        let faults = plant(r, &mut call, &faults);
        let due = call.made(&model::sheet::CALLS);
        self.tally.see_all(&classes(&call, &faults, &due));
        let (subject, blocks) = (self.subject, self.blocks);
        let got = caught(&call, || call.made(subject))?;
        let singly = caught(&call, || call.made_singly(blocks))?;
        let published = caught(&call, || call.made_singly(&PUBLISHED))?;
        let sides = [
            ("the model", &due),
            ("its blocks run singly", &singly),
            ("the published blocks run singly", &published),
        ];
        for (whose, due) in sides {
            if let Some(what) = got.difference(due) {
                return Err(format!("{what}, by {whose}, of {}", call.text()));
            }
        }
        Ok(due)
    }
}

/// What a call leaves; if it panics, the whole call.
fn caught(call: &Call, made: impl FnOnce() -> Left + UnwindSafe) -> Result<Left, String> {
    catch_unwind(made).map_err(|_| format!("it panics, on {}", call.text()))
}

/// 1 to 16 rows; one in 64 has more, and nothing else is wrong.
fn any_count(r: &mut Rng) -> usize {
    let more = if r.one_in(64) { 16 } else { 0 };
    1 + more + r.below(16) as usize
}

/// One to three faults of any numbers, of those that have rows, or of the sheet's form.
fn any_faults(r: &mut Rng, rows: usize) -> Vec<Fault> {
    let numbers = match r.below(8) {
        0 => &[1][..],
        1..=4 => &[1, 2, 3, 4, 5, 6, 7, NO_BLOCK],
        _ => &[2, 6, 6, 7, 7],
    };
    let count = 1 + r.below(3);
    let fault = |_| Fault {
        number: r.pick(numbers),
        row: r.below(rows as u64) as usize,
    };
    (0..count).map(fault).collect()
}
