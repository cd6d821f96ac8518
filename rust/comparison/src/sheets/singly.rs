//! A sheet as its blocks run singly: numbers, rows, answers and words come from each block's own calls on its stretch.
use std::ops::Range;

use crate::oracle::Oracle;
use crate::sheet::{NO_BLOCK, Row, SheetAnswer, Tick, rows_of};
use crate::{Answer, Calls, model};

/// The published Rust's calls, as far as a sheet makes them; the others are the model's. It refuses nothing: which number is due is
/// document 01's, by the model.
pub const PUBLISHED: Calls = Calls {
    state_length: |kind, s| match model::state_length(kind, s) {
        (0, _) => (0, Oracle::new(kind, s).state_length()),
        refused => refused,
    },
    start: |kind, s, region| {
        Oracle::new(kind, s).start(region);
        0
    },
    emit: |kind, s, time, inputs, region| match model::refusal(kind, s, region, Some(time)) {
        0 => Oracle::new(kind, s).emit(f64::from_bits(time), inputs, region),
        number => Answer::refused(number),
    },
    update: |kind, s, time, inputs, region| match model::refusal(kind, s, region, Some(time)) {
        0 => Oracle::new(kind, s).update(f64::from_bits(time), inputs, region),
        number => Answer::refused(number),
    },
    ..model::CALLS
};

/// Rows with their stretches, or the refusal of 13 or 1 to 3.
type Laid = Result<Vec<(Row, Range<usize>)>, SheetAnswer>;

fn laid(blocks: &Calls, rows: &[u64], region: &[u64]) -> Laid {
    let refused = |number, row| Err(SheetAnswer::refused(number, row));
    let Some(rows) = rows_of(rows) else {
        return refused(NO_BLOCK, 0);
    };
    let reads_ahead = |(n, row): (usize, &Row)| row.columns.iter().any(|c| *c >= readable(n));
    if !(1..=16).contains(&rows.len()) || rows.iter().enumerate().any(reads_ahead) {
        return refused(1, 0);
    }
    let (mut laid, mut end) = (vec![], 0);
    for (n, row) in rows.into_iter().enumerate() {
        let (number, length) = (blocks.state_length)(row.kind, &row.settings);
        if number != 0 {
            return refused(number, n);
        }
        laid.push((row, end..end + length));
        end += length;
    }
    if end == region.len() {
        Ok(laid)
    } else {
        refused(3, 0)
    }
}

/// How many words stand before row n, which its columns may name: the tick's eight, and two for each row further up.
fn readable(n: usize) -> u64 {
    8 + 2 * n as u64
}

/// A start of each block.
///
/// # Panics
/// If a block refuses what its sheet accepts.
pub fn start(blocks: &Calls, rows: &[u64], region: &mut [u64]) -> SheetAnswer {
    let rows = match laid(blocks, rows, region) {
        Ok(rows) => rows,
        Err(refused) => return refused,
    };
    for (row, stretch) in rows {
        let number = (blocks.start)(row.kind, &row.settings, &mut region[stretch]);
        assert_eq!(number, 0, "a block refuses its start");
    }
    SheetAnswer::default()
}

/// An emit of each block, top to bottom, then an update of each with the inputs that its emit saw. The least number of an emit is
/// the sheet's.
///
/// # Panics
/// If a block refuses an update after it accepted the emit.
pub fn tick(
    blocks: &Calls,
    rows: &[u64],
    tick: &Tick,
    region: &mut [u64],
    answers: &mut [u64],
) -> SheetAnswer {
    let rows = match laid(blocks, rows, region) {
        Ok(rows) if answers.len() == 2 * rows.len() => rows,
        Ok(_) => return SheetAnswer::refused(4, 0),
        Err(refused) => return refused,
    };
    let ran = emits(blocks, &rows, tick, region);
    if let Some(refused) = least(&ran.emitted) {
        return refused;
    }
    answers.copy_from_slice(&ran.words[8..]);
    let mut warning = false;
    for ((row, stretch), inputs) in rows.into_iter().zip(&ran.received) {
        let words = &mut region[stretch];
        let updated = (blocks.update)(row.kind, &row.settings, tick.time, inputs, words);
        assert_eq!(updated.refusal, 0, "a block refuses its update");
        warning |= updated.warning;
    }
    SheetAnswer {
        warning,
        ..SheetAnswer::default()
    }
}

/// The emits of a tick: the inputs that each block received, what it answered, and all words that a column may name: the tick's,
/// and then the answers.
struct Emits {
    received: Vec<[u64; 3]>,
    emitted: Vec<Answer>,
    words: Vec<u64>,
}

/// An emit of each block, top to bottom: a column is a place among the words that stand there by then.
fn emits(blocks: &Calls, rows: &[(Row, Range<usize>)], tick: &Tick, region: &[u64]) -> Emits {
    let mut ran = Emits {
        received: vec![],
        emitted: vec![],
        words: tick.words.to_vec(),
    };
    for (row, stretch) in rows {
        let (s, words) = (&row.settings, &region[stretch.clone()]);
        let inputs = row.columns.map(|column| ran.words[column as usize]);
        let answer = (blocks.emit)(row.kind, s, tick.time, &inputs, words);
        ran.words.extend(crossed(row, &answer));
        ran.received.push(inputs);
        ran.emitted.push(answer);
    }
    ran
}

/// The least number of the blocks', and the topmost row that has it; 5 is of no row.
fn least(emitted: &[Answer]) -> Option<SheetAnswer> {
    let numbers = emitted.iter().map(|answer| answer.refusal).enumerate();
    let refused = numbers.filter(|(_, number)| *number != 0);
    let (row, number) = refused.min_by_key(|(row, number)| (*number, *row))?;
    Some(SheetAnswer::refused(
        number,
        if number == 5 { 0 } else { row },
    ))
}

/// A row's two answer words.
fn crossed(row: &Row, answer: &Answer) -> [u64; 2] {
    let boolean = u64::from(answer.boolean);
    match row.kind.outputs().as_bytes() {
        [b'b'] => [boolean, 0],
        [b'r'] => [answer.real, 0],
        _ => [answer.real, boolean],
    }
}
