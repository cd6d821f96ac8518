//! The comparison: the Rust as published (`oracle`), a model of document 01 written apart from it
//! (`model`), the inputs for both (`inputs`), and what is said of them call by call (`compare`, `differ`),
//! over histories (`histories`), on stored calls (`stored`), on text (`soak`, `sessions`), of bench
//! sheets (`sheet`, `sheets`) and of their speed (`bench`).
#![forbid(unsafe_code)]

pub mod bench;
pub mod compare;
pub mod differ;
mod effects;
pub mod histories;
pub mod inputs;
pub mod leaves;
pub mod lengths;
pub mod model;
pub mod oracle;
mod pulse;
pub mod pulse_classes;
mod ring;
pub mod ring_classes;
pub mod rounding_classes;
pub mod sessions;
pub mod sheet;
pub mod sheets;
pub mod sides;
pub mod soak;
pub mod sound_classes;
pub mod stored;
pub mod tally;

pub use oce_blocks::kind::Kind;

/// What an emit or an update hands back. A refusal has zeros beside its number.
#[derive(Clone, Copy, Debug, PartialEq, Eq, Default)]
pub struct Answer {
    pub refusal: u64,
    pub real: u64,
    pub boolean: bool,
    pub warning: bool,
}

impl Answer {
    #[must_use]
    pub fn refused(refusal: u64) -> Answer {
        Answer {
            refusal,
            ..Answer::default()
        }
    }
}

/// A region taken apart: the refusal, and the words of its state record in the order of the fields,
/// with zeros after them. A refusal has zeros beside its number.
#[derive(Clone, Copy, Debug, PartialEq, Eq, Default)]
pub struct Decoded {
    pub refusal: u64,
    pub words: [u64; 6],
}

/// Of a block with settings: time, inputs, region.
pub type Emit = fn(Kind, &[u64], u64, &[u64], &[u64]) -> Answer;
pub type Update = fn(Kind, &[u64], u64, &[u64], &mut [u64]) -> Answer;

/// Words of a run's tick: its time and three inputs.
pub const TICK_WORDS: usize = 4;

pub type TickWords = [u64; TICK_WORDS];

/// Whole ticks in their order, then the region: what each answers, or the refusal of the run, which writes nothing.
pub type Run = fn(Kind, &[u64], &[TickWords], &mut [u64]) -> Result<Vec<Answer>, u64>;

/// The calls that are compared with the Rust: the model's, a slipped model's, or those of a port.
/// Settings, inputs and region are words. There are always three inputs: a block that takes fewer
/// must not look at the rest.
#[derive(Clone, Copy)]
pub struct Calls {
    /// The refusal and the state length.
    pub state_length: fn(Kind, &[u64]) -> (u64, usize),
    /// The refusal; the region is written if it is 0.
    pub start: fn(Kind, &[u64], &mut [u64]) -> u64,
    pub emit: Emit,
    pub update: Update,
    /// A whole tick: the emit's outputs with the update's warning, and the words that it leaves.
    pub tick: Update,
    pub run: Run,
    /// Of settings and a region.
    pub sound: fn(Kind, &[u64], &[u64]) -> bool,
    pub decode: fn(Kind, &[u64], &[u64]) -> Decoded,
}

/// Equal as reals: all NaNs count as one, -0.0 and 0.0 differ.
#[must_use]
pub fn same_real(a: u64, b: u64) -> bool {
    a == b || (f64::from_bits(a).is_nan() && f64::from_bits(b).is_nan())
}

/// Words as they are shown: 16 upper-case hex digits each, one space between.
#[must_use]
pub fn hex(words: &[u64]) -> String {
    let shown: Vec<String> = words.iter().map(|w| format!("{w:016X}")).collect();
    shown.join(" ")
}
