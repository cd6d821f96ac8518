//! Sheets of every sort that accept their next tick.
use crate::Kind;
use crate::inputs::{self, MINUS_ZERO, Rng, any_bool, any_real};
use crate::model::{self, leaves::UNSET};
use crate::sheet::{Row, Tick, words_of};

use super::{Call, Left};

/// What the words of the answers are before a call: none that a block gives.
const UNWRITTEN: u64 = 0xBAD0_BAD0_BAD0_BAD0;

/// Rows, their words with any words where none is read, the region, and a time that no previous time lies above.
#[derive(Clone)]
pub struct Sheet {
    pub rows: Vec<Row>,
    words: Vec<u64>,
    pub region: Vec<u64>,
    pub time: f64,
}

impl Sheet {
    /// A sheet of these rows, with a region of zeros.
    #[must_use]
    pub fn new(rows: Vec<Row>) -> Sheet {
        let length = |row: &Row| model::state_length(row.kind, &row.settings).1;
        Sheet {
            words: words_of(&rows),
            region: vec![0; rows.iter().map(length).sum()],
            rows,
            time: 0.0,
        }
    }

    /// A sheet of so many rows, on stretches of any words whose previous times are unset or not above the time.
    pub fn any(r: &mut Rng, count: usize) -> Sheet {
        let (averages, columns) = (r.one_in(6), any_columns(r));
        let feeding = r.pick(&[Feeding::None, Feeding::None, Feeding::Any, Feeding::Chain]);
        let mut rows = vec![];
        for n in 0..count {
            let kind = any_kind(r, averages);
            let mut row = Row::new(kind, &inputs::accepted_settings(r, kind), [0; 3]);
            row.columns = [(); 3].map(|()| r.pick(&columns));
            if n > 0 {
                feeding.feed(r, n, &mut row);
            }
            rows.push(row);
        }
        let time = inputs::tame(r);
        Sheet {
            words: rows.iter().flat_map(|row| row.words(any_real(r))).collect(),
            region: rows.iter().flat_map(|row| stretch(r, row, time)).collect(),
            rows,
            time,
        }
    }

    /// Takes over what a call at this time left, unless it was refused.
    pub(super) fn go_on(&mut self, left: Left, time: f64) {
        if left.answer.refusal == 0 {
            (self.region, self.time) = (left.region, time);
        }
    }

    /// A start of the sheet.
    #[must_use]
    pub fn start(&self) -> Call {
        Call {
            rows: self.words.clone(),
            tick: None,
            region: self.region.clone(),
            answers: vec![],
        }
    }

    /// A tick of the sheet at this time with these words.
    #[must_use]
    pub fn tick(&self, time: u64, words: [u64; 8]) -> Call {
        Call {
            tick: Some(Tick { time, words }),
            answers: vec![UNWRITTEN; 2 * self.rows.len()],
            ..self.start()
        }
    }

    /// A tick with any words, mostly a step ahead; at times where a rule of a row turns, or no number.
    pub fn any_tick(&self, r: &mut Rng) -> Call {
        let words = [(); 8].map(|()| any_word(r));
        let turning = self.rows.first().filter(|_| r.one_in(8));
        let time = match turning {
            Some(row) => inputs::wide::tick(r, row.kind, &row.settings, &self.region).0,
            None => inputs::time_after(r, self.time),
        };
        self.tick(time, words)
    }
}

/// How the rows of a sheet feed each other.
#[derive(Clone, Copy, PartialEq, Eq)]
enum Feeding {
    /// They do not.
    None,
    /// A column in two names an answer word of any row further up.
    Any,
    /// Every row from the second on reads the row above.
    Chain,
}

impl Feeding {
    /// Lets row n, which is not the first, read rows further up.
    fn feed(self, r: &mut Rng, n: usize, row: &mut Row) {
        let last = 2 * n as u64 - 1;
        match self {
            Feeding::None => return,
            Feeding::Any => {
                for column in &mut row.columns {
                    let any = r.below(last + 1);
                    let word = r.pick(&[last, last - 1, any]);
                    *column = if r.one_in(2) { 8 + word } else { *column };
                }
            }
            Feeding::Chain => {
                let read = r.below(row.kind.inputs().len() as u64) as usize;
                let word = if r.one_in(8) { last } else { last - 1 };
                row.columns[read] = 8 + word;
            }
        }
        if row.kind.is_controller() && r.one_in(4) {
            limit_to_minus_zero(row);
        }
    }
}

/// Both limits of a controller at -0.0: so it answers, unless its sum is a zero or a NaN.
fn limit_to_minus_zero(row: &mut Row) {
    (row.settings[5], row.settings[6]) = (MINUS_ZERO, MINUS_ZERO);
}

/// An input word for a real or a boolean.
fn any_word(r: &mut Rng) -> u64 {
    if r.one_in(2) {
        any_real(r)
    } else {
        any_bool(r)
    }
}

/// Any block; a moving average, which has thousands of words, only where they are let in, and then one row in six.
fn any_kind(r: &mut Rng, averages: bool) -> Kind {
    if averages && r.one_in(6) {
        return Kind::MovingAverage;
    }
    loop {
        let kind = r.pick(&Kind::ALL);
        if kind != Kind::MovingAverage {
            return kind;
        }
    }
}

/// The words of the tick that the rows read: all eight, or few that they share.
fn any_columns(r: &mut Rng) -> Vec<u64> {
    let count = if r.one_in(2) { 8 } else { 1 + r.below(3) };
    let first = r.below(8);
    (0..count).map(|n| (first + n) % 8).collect()
}

/// Words for a row: fresh or any, sound, and with no previous time above this one.
fn stretch(r: &mut Rng, row: &Row, time: f64) -> Vec<u64> {
    let (kind, s) = (row.kind, &row.settings);
    let mut w = inputs::wide::region(r, kind, s);
    w.resize(model::state_length(kind, s).1, 0);
    if let Some(n) = kind.time_place(s) {
        let previous = f64::from_bits(w[n]);
        if w[n] != UNSET && !(previous.is_finite() && previous <= time) {
            w[n] = r.pick(&[time, time - 0.25, time - 1.0, -1e9]).to_bits();
        }
    }
    if kind == Kind::MovingAverage {
        let capacity = (w.len() as u64 - 6) / 2;
        (w[3], w[4]) = (w[3] % capacity, w[4].min(capacity));
    }
    w
}
