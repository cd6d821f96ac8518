//! The published side of a sheet's speed comparison: its blocks by hand, over one region.
use std::ops::Range;

use super::sheet::SheetCase;
use crate::sheet::{Row, Tick};
use oce_blocks::{Block, Ctx, NoopDiagnostics, access};
use oce_model::Value;

/// The published blocks of a sheet's rows with their region, and room for what each row's columns name.
pub struct PublishedSheet {
    rows: Vec<PublishedRow>,
    inputs: Vec<[Value; 3]>,
    region: Vec<u64>,
    feeds: bool,
}

struct PublishedRow {
    block: Box<dyn Block>,
    columns: [usize; 3],
    inputs: usize,
    /// Whether an input is a real.
    reals: [bool; 3],
    stretch: Range<usize>,
}

/// A tick as the Rust takes it: the first four words as reals, the others as booleans.
#[derive(Clone, Copy)]
pub struct PreparedTick {
    time: f64,
    values: [Value; 8],
}

impl PublishedSheet {
    #[must_use]
    pub fn new(case: &SheetCase) -> PublishedSheet {
        let rows = case.rows().into_iter().zip(case.stretches());
        let row = |(row, stretch): (Row, _)| PublishedRow {
            block: access::block(row.kind, &row.settings),
            columns: row.columns.map(|column| column as usize),
            inputs: row.kind.inputs().len(),
            reals: [0, 1, 2].map(|n| row.kind.inputs().as_bytes().get(n) == Some(&b'r')),
            stretch,
        };
        let rows: Vec<_> = rows.map(row).collect();
        PublishedSheet {
            inputs: vec![[Value::Boolean(false); 3]; rows.len()],
            rows,
            region: case.region(),
            feeds: case.feeds,
        }
    }

    #[must_use]
    pub fn prepared(ticks: &[Tick]) -> Vec<PreparedTick> {
        let prepared = |tick: &Tick| PreparedTick {
            time: f64::from_bits(tick.time),
            values: std::array::from_fn(|n| value(n < 4, tick.words[n])),
        };
        ticks.iter().map(prepared).collect()
    }

    /// All rows emit, then all update, with inputs that are gathered once. A row's outputs are stored as two words; one that its
    /// block lacks is left as it is.
    pub fn run<const WORDS: usize>(
        &mut self,
        ticks: &[PreparedTick],
        answers: &mut [[u64; WORDS]],
    ) {
        if self.feeds {
            self.run_fed(ticks, answers);
        } else {
            self.run_unfed(ticks, answers);
        }
    }

    #[inline(never)]
    fn run_unfed<const WORDS: usize>(
        &mut self,
        ticks: &[PreparedTick],
        answers: &mut [[u64; WORDS]],
    ) {
        for (tick, words) in ticks.iter().zip(answers) {
            let ctx = Ctx::new(tick.time, &NoopDiagnostics);
            let rows = self.rows.iter().zip(&mut self.inputs);
            for ((row, inputs), pair) in rows.zip(words.chunks_exact_mut(2)) {
                *inputs = row.columns.map(|column| tick.values[column & 7]);
                let (inputs, region) = (&inputs[..row.inputs], &self.region[row.stretch.clone()]);
                let mut keep = |n: usize, y| pair[n] = word(y);
                row.block.emit_from_state(&ctx, inputs, region, &mut keep);
            }
            for (row, inputs) in self.rows.iter().zip(&self.inputs) {
                let region = &mut self.region[row.stretch.clone()];
                row.block.update_state(&ctx, &inputs[..row.inputs], region);
            }
        }
    }

    /// With columns from 8 on, which name the words that the rows further up have just stored.
    #[inline(never)]
    fn run_fed<const WORDS: usize>(
        &mut self,
        ticks: &[PreparedTick],
        answers: &mut [[u64; WORDS]],
    ) {
        for (tick, words) in ticks.iter().zip(answers) {
            let ctx = Ctx::new(tick.time, &NoopDiagnostics);
            for (n, (row, inputs)) in self.rows.iter().zip(&mut self.inputs).enumerate() {
                let (above, own) = words.split_at_mut(2 * n);
                row.gather(tick, above, inputs);
                let (inputs, region) = (&inputs[..row.inputs], &self.region[row.stretch.clone()]);
                let mut keep = |n: usize, y| own[n] = word(y);
                row.block.emit_from_state(&ctx, inputs, region, &mut keep);
            }
            for (row, inputs) in self.rows.iter().zip(&self.inputs) {
                let region = &mut self.region[row.stretch.clone()];
                row.block.update_state(&ctx, &inputs[..row.inputs], region);
            }
        }
    }
}

impl PublishedRow {
    /// The row's inputs: values of the tick, or answer words of the rows above, read as the block reads them.
    #[inline]
    fn gather(&self, tick: &PreparedTick, above: &[u64], inputs: &mut [Value; 3]) {
        for (n, input) in inputs[..self.inputs].iter_mut().enumerate() {
            let column = self.columns[n];
            *input = if column < 8 {
                tick.values[column]
            } else {
                value(self.reals[n], above[column - 8])
            };
        }
    }
}

/// A word as a real, or else as a boolean.
#[inline]
fn value(real: bool, word: u64) -> Value {
    if real {
        Value::Real(f64::from_bits(word))
    } else {
        Value::Boolean(word != 0)
    }
}

/// An output as a word.
#[inline]
fn word(y: Value) -> u64 {
    match y {
        Value::Real(y) => y.to_bits(),
        Value::Boolean(y) => u64::from(y),
        Value::Integer(_) => unreachable!("no ported block has an integer output"),
    }
}

#[cfg(test)]
mod tests {
    use super::*;
    use crate::bench::sheet::cases;
    use crate::model;

    #[test]
    fn a_tick_answers_as_document_01_says() {
        for case in cases() {
            let (rows, mut region) = (case.rows(), case.region());
            let (ticks, mut sheet) = (case.ticks(0, 1000), PublishedSheet::new(&case));
            let mut answers = vec![[0; 32]; ticks.len()];
            sheet.run(&PublishedSheet::prepared(&ticks), &mut answers);
            for (tick, answer) in ticks.iter().zip(answers) {
                let mut words = [0; 32];
                model::sheet::tick(&rows, tick, &mut region, &mut words);
                assert_eq!(answer, words, "{}", case.name);
            }
            assert!(sheet.region == region, "{}", case.name);
        }
    }
}
