//! The ported Rust, called for inputs that document 01 accepts.
use std::cell::Cell;

use crate::{Answer, Kind};
use oce_blocks::{Block, BlockKind, Ctx, Diagnostics, access};
use oce_model::{ParamTable, Value, determinism::canonicalize_real};

/// A published block with its settings.
pub struct Oracle {
    kind: Kind,
    settings: Vec<u64>,
    block: Box<dyn Block>,
}

/// Why the published validator turns a moving average's region down, when it looks at the times of its points.
const OF_THE_TIMES: [&str; 2] = [
    "history time is not finite",
    "history times must be ordered and not later than model time",
];

/// And when it has passed them.
const BEHIND_THE_TIMES: [&str; 3] = [
    "oldest history time precedes the start time",
    "history no longer covers the window start",
    "last history time differs from previous tick time",
];

/// Counts the warnings.
#[derive(Default)]
struct Warned(Cell<u64>);

impl Diagnostics for Warned {
    fn warn(&self, _source: &str, _message: &str, _t: f64) {
        self.0.set(self.0.get() + 1);
    }
}

impl Oracle {
    #[must_use]
    pub fn new(kind: Kind, settings: &[u64]) -> Oracle {
        Oracle {
            kind,
            settings: settings.to_vec(),
            block: access::block(kind, settings),
        }
    }

    #[must_use]
    pub fn state_length(&self) -> usize {
        self.block.state_len()
    }

    pub fn start(&self, region: &mut [u64]) {
        self.block.init_state(region, &ParamTable);
    }

    /// A region of the right length, started.
    #[must_use]
    pub fn started(&self) -> Vec<u64> {
        let mut region = vec![0; self.state_length()];
        self.start(&mut region);
        region
    }

    #[must_use]
    pub fn emit(&self, time: f64, inputs: &[u64], region: &[u64]) -> Answer {
        let warned = Warned::default();
        let (values, count) = values(self.kind, inputs);
        let (ctx, values) = (Ctx::new(time, &warned), &values[..count]);
        let answer = kept(|keep| self.block.emit_from_state(&ctx, values, region, keep));
        if self.block.kind() == BlockKind::Algebraic {
            // a controller without state: the engine would ask it so
            let also = kept(|keep| self.block.step_algebraic(&ctx, values, keep));
            assert_eq!(also, answer, "the Rust has two answers");
        }
        assert_eq!(warned.0.get(), 0, "an emit warned");
        answer
    }

    pub fn update(&self, time: f64, inputs: &[u64], region: &mut [u64]) -> Answer {
        let warned = Warned::default();
        let (values, count) = values(self.kind, inputs);
        let ctx = Ctx::new(time, &warned);
        self.block.update_state(&ctx, &values[..count], region);
        assert!(warned.0.get() <= 1, "an update warned twice");
        self.make_canonical(region);
        Answer {
            warning: warned.0.get() == 1,
            ..Answer::default()
        }
    }

    /// Whether the times of a moving average's points are in order, by the published validator right after a tick at the previous time.
    /// None where it ends before it looks at them: at no points, or at another word that it would not take.
    #[must_use]
    pub fn times_in_order(&self, region: &[u64]) -> Option<bool> {
        let previous = f64::from_bits(region[2]);
        let Err(why) = self.block.validate_state(region, previous, previous) else {
            return Some(true);
        };
        let is_one_of = |reasons: &[&str]| reasons.contains(&why.as_str());
        is_one_of(&BEHIND_THE_TIMES)
            .then_some(true)
            .or(is_one_of(&OF_THE_TIMES).then_some(false))
    }

    /// Makes the reals that an update stored canonical: all NaNs count as one, and document 01
    /// says which one is stored. Not all of the Rust's stores do; words it did not store stay.
    fn make_canonical(&self, region: &mut [u64]) {
        for n in self.stored_reals(region) {
            region[n] = canonicalize_real(f64::from_bits(region[n])).to_bits();
        }
    }

    /// The places of the reals that an update has just stored, times apart: these are finite.
    fn stored_reals(&self, region: &[u64]) -> Vec<usize> {
        if self.kind == Kind::MovingAverage {
            let capacity = (region.len() - 6) / 2;
            let last = (region[3] + region[4] - 1) as usize % capacity;
            return vec![0, 6 + capacity + last];
        }
        let words = self.kind.words(&self.settings);
        words.match_indices('r').map(|(n, _)| n).collect()
    }
}

/// The outputs that a block hands to its closure.
fn kept(emit: impl FnOnce(&mut dyn FnMut(usize, Value))) -> Answer {
    let mut answer = Answer::default();
    emit(&mut |_, value| match value {
        Value::Real(y) => answer.real = y.to_bits(),
        Value::Boolean(y) => answer.boolean = y,
        Value::Integer(_) => unreachable!("no ported block has an integer output"),
    });
    answer
}

/// The inputs as the Rust takes them, and how many the block has.
#[must_use]
pub fn values(kind: Kind, inputs: &[u64]) -> ([Value; 3], usize) {
    let mut values = [Value::Boolean(false); 3];
    for (n, item) in kind.inputs().bytes().enumerate() {
        values[n] = match item {
            b'r' => Value::Real(f64::from_bits(inputs[n])),
            _ => Value::Boolean(inputs[n] != 0),
        };
    }
    (values, kind.inputs().len())
}
