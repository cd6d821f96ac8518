//! Calls with the number and the row that documents 01 and 02 give for them: how many rows, which columns, and planted faults.
use crate::Kind;
use crate::inputs::{Rng, accepted_settings};
use crate::model;
use crate::sheet::{NO_BLOCK, ROW_WORDS, Row, SETTINGS};

use super::{Call, Fault, Sheet, bad_columns, due, plant};

/// A call, and what is due: the number and the row.
pub struct Case {
    pub name: String,
    pub call: Call,
    pub refusal: u64,
    pub row: usize,
}

/// So many blocks that take turns, from this one on.
fn turns(blocks: &[Kind], from: usize, count: usize) -> Vec<Kind> {
    let turns = blocks.iter().copied().cycle();
    turns.skip(from).take(count).collect()
}

/// A tick that is accepted, at time 2, of rows with these blocks that were started and ticked at 1.
fn accepted(r: &mut Rng, kinds: &[Kind]) -> Call {
    let row = |(n, &kind): (usize, &Kind)| {
        let mut settings = accepted_settings(r, kind);
        if kind.is_controller() {
            settings[0] = 1 + r.below(3); // P keeps no previous time
        }
        Row::new(kind, &settings, [n as u64 % 8, 7, 0])
    };
    let mut sheet = Sheet::new(kinds.iter().enumerate().map(row).collect());
    if (1..=16).contains(&kinds.len()) {
        sheet.region = sheet.start().made(&model::sheet::CALLS).region;
        let ticked = sheet.tick(1f64.to_bits(), [1; 8]);
        sheet.region = ticked.made(&model::sheet::CALLS).region;
    }
    sheet.tick(2f64.to_bits(), [1; 8])
}

/// The call and a start on the same words: it has neither time nor answers, and tests 1 to 3 alone.
fn both(name: &str, call: Call, faults: &[Fault]) -> [Case; 2] {
    let start = Call {
        tick: None,
        answers: vec![],
        ..call.clone()
    };
    let case = |name: String, call, (refusal, row)| Case {
        name,
        call,
        refusal,
        row,
    };
    let tested = |fault: &&Fault| [1, 2, 3, NO_BLOCK].contains(&fault.number);
    let of_start: Vec<Fault> = faults.iter().filter(tested).copied().collect();
    [
        case(format!("tick, {name}"), call, due(faults)),
        case(format!("start, {name}"), start, due(&of_start)),
    ]
}

/// One fault of the whole sheet, or none.
fn of_sheet(number: u64) -> Vec<Fault> {
    let fault = (number != 0).then_some(Fault { number, row: 0 });
    fault.into_iter().collect()
}

/// 1 to 16 rows are taken.
fn counts(r: &mut Rng) -> Vec<Case> {
    let case = |count| {
        let number = u64::from(!(1..=16).contains(&count));
        let name = format!("{count} rows");
        let call = accepted(r, &turns(&Kind::ALL, 0, count));
        both(&name, call, &of_sheet(number))
    };
    [0, 1, 2, 15, 16, 17, 18, 32]
        .into_iter()
        .flat_map(case)
        .collect()
}

/// Each of the three columns of each row, whether its block reads it or not: the last words that it may name, and what it may not.
fn columns_of(r: &mut Rng, kinds: &[Kind]) -> Vec<Case> {
    let mut cases = vec![];
    for (row, place) in (0..kinds.len()).flat_map(|row| [1, 2, 3].map(|place| (row, place))) {
        let last = 8 + 2 * row as u64 - 1;
        let good = [7, last].map(|column| (column, 0));
        let bad = bad_columns(row, kinds.len()).map(|column| (column, 1));
        for (column, number) in good.into_iter().chain(bad) {
            let mut call = accepted(r, kinds);
            call.rows[row * ROW_WORDS + place] = column;
            let kind = kinds[row];
            let name = format!("column {column} in place {place} of row {row}, {kind:?}");
            cases.extend(both(&name, call, &of_sheet(number)));
        }
    }
    cases
}

/// Every block in each of three rows.
fn columns(r: &mut Rng) -> Vec<Case> {
    let of = |from| columns_of(r, &turns(&Kind::ALL, from, 3));
    (0..Kind::ALL.len()).flat_map(of).collect()
}

/// Every block in each of sixteen rows, but the moving average, which has thousands of words.
fn columns_of_sixteen(r: &mut Rng) -> Vec<Case> {
    let mut short = Kind::ALL.to_vec();
    short.retain(|kind| *kind != Kind::MovingAverage);
    let of = |from| columns_of(r, &turns(&short, from, 16));
    (0..short.len()).flat_map(of).collect()
}

/// A row's own word in one of its columns, beside a fault of each other number in each row: 13 alone comes before its 1.
fn columns_and_faults(r: &mut Rng) -> Vec<Case> {
    let mut cases = vec![];
    for number in [2, 3, 4, 5, 6, 7, NO_BLOCK] {
        for (row, at) in (0..3).flat_map(|row| [0, 1, 2].map(|at| (row, at))) {
            let mut call = accepted(r, &turns(&Kind::ALL, row + at, 3));
            call.rows[at * ROW_WORDS + 1 + row] = 8 + 2 * at as u64;
            let mut faults = plant(r, &mut call, &[Fault { number, row }]);
            faults.push(Fault { number: 1, row: at });
            assert_eq!(faults.len(), 2);
            cases.extend(both(&format!("own word, {faults:?}"), call, &faults));
        }
    }
    cases
}

/// Words that name no block: a number above 7, a controller's type above 3, or words that are not seventeen each.
fn names(r: &mut Rng) -> Vec<Case> {
    let mut cases = vec![];
    let mut refused = |name: String, change: &dyn Fn(&mut Vec<u64>)| {
        let mut call = accepted(r, &[Kind::Pid, Kind::PidWithReset]);
        change(&mut call.rows);
        cases.extend(both(&name, call, &of_sheet(NO_BLOCK)));
    };
    for begin in [0, ROW_WORDS] {
        for word in [8, 9, 1 << 32, u64::MAX] {
            refused(format!("number {word} at {begin}"), &|rows| {
                rows[begin] = word
            });
            let place = begin + SETTINGS;
            refused(format!("type {word} at {place}"), &|rows| {
                rows[place] = word
            });
        }
        refused(format!("type 4 at {begin}"), &|rows| {
            rows[begin + SETTINGS] = 4
        });
    }
    for words in (1..2 * ROW_WORDS).filter(|words| *words != ROW_WORDS) {
        refused(format!("{words} words of rows"), &|rows| {
            rows.truncate(words)
        });
    }
    cases
}

/// Every one and every two of the faults in three rows: the least number beats the upper row, and of one number's rows the topmost is given.
fn faults(r: &mut Rng) -> Vec<Case> {
    let numbers = [1, 2, 3, 4, 5, 6, 7, NO_BLOCK];
    let all = numbers
        .into_iter()
        .flat_map(|number| (0..3).map(move |row| Fault { number, row }));
    let all: Vec<Fault> = all.collect();
    let mut cases = vec![];
    for (n, first) in all.iter().enumerate() {
        for second in &all[n..] {
            let mut call = accepted(r, &turns(&Kind::ALL, n, 3));
            let planted = plant(r, &mut call, &[*first, *second]);
            assert!(
                [first, second]
                    .map(|f| f.number)
                    .iter()
                    .all(|n| planted.iter().any(|f| f.number == *n))
            );
            cases.extend(both(&format!("{planted:?}"), call, &planted));
        }
    }
    cases
}

/// All cases.
#[must_use]
pub fn cases() -> Vec<Case> {
    let mut r = Rng::new(11, 0);
    let of_columns = [columns, columns_of_sixteen, columns_and_faults];
    let all = [counts, names, faults].into_iter().chain(of_columns);
    all.flat_map(|cases| cases(&mut r)).collect()
}
