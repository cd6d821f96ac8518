//! Document 01's bench sheet, with document 02's rows that feed rows, over the model's blocks.
use std::ops::Range;

use super::leaves::is_finite;
use super::refusals::{length, region_fault, setting_fault, time_fault};
use crate::sheet::{NO_BLOCK, Row, SheetAnswer, SheetCalls, Tick, rows_of};
use crate::{Answer, Kind};

/// The model's calls over words: those that name no rows are the boundary's to refuse.
pub const CALLS: SheetCalls = SheetCalls {
    start: |rows, region| match rows_of(rows) {
        Some(rows) => start(&rows, region),
        None => SheetAnswer::refused(NO_BLOCK, 0),
    },
    tick: |rows, at, region, answers| match rows_of(rows) {
        Some(rows) => tick(&rows, at, region, answers),
        None => SheetAnswer::refused(NO_BLOCK, 0),
    },
};

/// Starts every row on its own stretch.
pub fn start(rows: &[Row], region: &mut [u64]) -> SheetAnswer {
    let refused = start_refusal(rows, region);
    if refused.refusal != 0 {
        return refused;
    }
    for (n, row) in rows.iter().enumerate() {
        super::start(row.kind, &row.settings, &mut region[stretch(rows, n)]);
    }
    SheetAnswer::default()
}

/// The rows emit, top to bottom; then all update, each with the inputs that its emit saw.
pub fn tick(rows: &[Row], tick: &Tick, region: &mut [u64], answers: &mut [u64]) -> SheetAnswer {
    let refused = tick_refusal(rows, tick, region, answers);
    if refused.refusal != 0 {
        return refused;
    }
    let mut seen = vec![];
    for (n, row) in rows.iter().enumerate() {
        let (s, words) = (&row.settings, &region[stretch(rows, n)]);
        let received = inputs(row, tick, answers);
        let emitted = super::emit(row.kind, s, tick.time, &received, words);
        answers[2 * n..2 * n + 2].copy_from_slice(&outputs(row.kind, &emitted));
        seen.push(received);
    }
    let mut warning = false;
    for (n, row) in rows.iter().enumerate() {
        let (s, words) = (&row.settings, &mut region[stretch(rows, n)]);
        let updated = super::update(row.kind, s, tick.time, &seen[n], words);
        warning |= updated.warning;
    }
    SheetAnswer {
        warning,
        ..SheetAnswer::default()
    }
}

/// Row parts lie end to end in row order.
fn stretch(rows: &[Row], n: usize) -> Range<usize> {
    let lengths = |rows: &[Row]| rows.iter().map(row_length).sum::<usize>();
    lengths(&rows[..n])..lengths(&rows[..=n])
}

fn row_length(row: &Row) -> usize {
    length(row.kind, &row.settings)
}

/// A column below 8 names a word of the tick. One of 8 or more names answer word column - 8 of this same tick, which a row further
/// up has written. The word is handed on as its bits.
fn inputs(row: &Row, tick: &Tick, answers: &[u64]) -> [u64; 3] {
    row.columns.map(|column| match column {
        0..8 => tick.words[column as usize],
        _ => answers[column as usize - 8],
    })
}

/// Whether a column of row n names its own word, a later row's, or none. Answer words belong to the rows by twos.
fn column_fault(n: usize, column: u64) -> bool {
    column >= 8 && (column - 8) / 2 >= n as u64
}

/// The real or boolean output, then the second output or 0.
#[must_use]
pub fn outputs(kind: Kind, answer: &Answer) -> [u64; 2] {
    let boolean = u64::from(answer.boolean);
    match kind.outputs() {
        "rb" => [answer.real, boolean],
        "r" => [answer.real, 0],
        _ => [boolean, 0],
    }
}

/// The topmost row at fault.
fn topmost(rows: &[Row], fault: impl Fn(usize) -> bool) -> Option<usize> {
    (0..rows.len()).find(|n| fault(*n))
}

/// Tests 1 to 3, each over all rows before the next.
fn start_refusal(rows: &[Row], region: &[u64]) -> SheetAnswer {
    let columns_fault = |n: usize| rows[n].columns.iter().any(|c| column_fault(n, *c));
    let settings_fault = |n: usize| setting_fault(rows[n].kind, &rows[n].settings);
    if rows.is_empty() || rows.len() > 16 || topmost(rows, columns_fault).is_some() {
        SheetAnswer::refused(1, 0)
    } else if let Some(n) = topmost(rows, settings_fault) {
        SheetAnswer::refused(2, n)
    } else if region.len() != rows.iter().map(row_length).sum::<usize>() {
        SheetAnswer::refused(3, 0)
    } else {
        SheetAnswer::default()
    }
}

/// All seven tests, each over all rows before the next.
fn tick_refusal(rows: &[Row], tick: &Tick, region: &[u64], answers: &[u64]) -> SheetAnswer {
    let before = start_refusal(rows, region);
    if before.refusal != 0 {
        return before;
    }
    let words = |n: usize| &region[stretch(rows, n)];
    let damaged = |n: usize| region_fault(rows[n].kind, &rows[n].settings, words(n));
    let runs_back = |n: usize| time_fault(rows[n].kind, &rows[n].settings, words(n), tick.time);
    if answers.len() != 2 * rows.len() {
        SheetAnswer::refused(4, 0)
    } else if !is_finite(tick.time) {
        SheetAnswer::refused(5, 0)
    } else if let Some(n) = topmost(rows, damaged) {
        SheetAnswer::refused(6, n)
    } else if let Some(n) = topmost(rows, runs_back) {
        SheetAnswer::refused(7, n)
    } else {
        SheetAnswer::default()
    }
}
