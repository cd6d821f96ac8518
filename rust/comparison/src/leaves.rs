//! Leaves over words, held to the published `dynamics.rs`, to the standard library and, where no
//! body is published, to document 01's sentence in `oce_model`.
use crate::inputs::{Rng, any_real, turning_word};
use crate::model::leaves as model;
use crate::model::leaves::{UNSET, word_of};
use crate::rounding_classes::{self, RoundingClass};
use crate::tally::{Tally, met};
use oce_blocks::access::leaves as published;
use oce_model::determinism::{canonicalize_real, det_max};

/// A leaf on as many of these words as it takes; its result is a canonical word.
pub type Leaf = fn([u64; 4]) -> u64;

#[derive(Clone, Copy)]
pub struct Leaves {
    pub canonical: Leaf,
    /// Time, previous time.
    pub tick_dt: Leaf,
    /// x, rate, gap.
    pub accumulate: Leaf,
    /// x, input, time constant, gap.
    pub filter: Leaf,
    pub positive_duration: Leaf,
    pub absolute: Leaf,
    pub ceil: Leaf,
    pub floor: Leaf,
}

impl Leaves {
    /// The leaves by name.
    #[must_use]
    pub fn each(&self) -> [(&'static str, Leaf); 8] {
        [
            ("canonical", self.canonical),
            ("tick_dt", self.tick_dt),
            ("accumulate", self.accumulate),
            ("filter", self.filter),
            ("positive_duration", self.positive_duration),
            ("absolute", self.absolute),
            ("ceil", self.ceil),
            ("floor", self.floor),
        ]
    }
}

/// The first three words, or all four, as reals.
fn three(w: [u64; 4]) -> [f64; 3] {
    [w[0], w[1], w[2]].map(f64::from_bits)
}

fn four(w: [u64; 4]) -> [f64; 4] {
    w.map(f64::from_bits)
}

fn real(w: [u64; 4]) -> f64 {
    f64::from_bits(w[0])
}

/// As published: `dynamics.rs`, the standard library, `oce_model`.
pub const PUBLISHED: Leaves = Leaves {
    canonical: |w| canonicalize_real(real(w)).to_bits(),
    tick_dt: |w| word_of(published::tick_dt(real(w), w[1])),
    accumulate: |w| {
        let [x, rate, gap] = three(w);
        word_of(published::accumulate(x, rate, gap))
    },
    filter: |w| {
        let [x, u, constant, gap] = four(w);
        word_of(published::filter(x, u, constant, gap))
    },
    positive_duration: |w| word_of(det_max(real(w), 0.0)),
    absolute: |w| word_of(real(w).abs()),
    ceil: |w| word_of(real(w).ceil()),
    floor: |w| word_of(real(w).floor()),
};

/// The model's.
pub const MODEL: Leaves = Leaves {
    canonical: |w| word_of(real(w)),
    tick_dt: |w| word_of(model::tick_dt(real(w), w[1])),
    accumulate: |w| {
        let [x, rate, gap] = three(w);
        word_of(model::accumulate(x, rate, gap))
    },
    filter: |w| {
        let [x, u, constant, gap] = four(w);
        word_of(model::filter(x, u, constant, gap))
    },
    positive_duration: |w| word_of(model::positive_duration(real(w))),
    absolute: |w| word_of(model::absolute(real(w))),
    ceil: |w| word_of(model::ceil(real(w))),
    floor: |w| word_of(model::floor(real(w))),
};

/// Four words of every sort: half the first ones have a fraction left to round, and some of the
/// second ones are the unset time.
pub fn words(r: &mut Rng) -> [u64; 4] {
    let mut w = [0; 4].map(|_| any_real(r));
    if r.one_in(2) {
        let [x, y, _, _] = four(w);
        w[0] = ((x % 1e7) * 0.5 + y % 3.0).to_bits();
    }
    if r.one_in(8) {
        w[1] = UNSET;
    }
    w
}

/// What a leaf is tried on, and what it gives there.
#[derive(Clone, Copy, Debug, PartialEq, Eq, PartialOrd, Ord)]
enum LeafClass {
    /// Another word than the first.
    Moved,
    Zero,
    /// The first word, of a leaf that rounds.
    Rounds(RoundingClass),
}

use LeafClass::*;

/// Whether this leaf rounds to a whole number.
fn is_rounding(name: &str) -> bool {
    name == "ceil" || name == "floor"
}

/// What a comparison of this leaf must meet.
fn expected_classes(name: &str) -> Vec<LeafClass> {
    let mut expected = vec![Moved, Zero];
    if is_rounding(name) {
        expected.extend(rounding_classes::all().into_iter().map(Rounds));
    }
    expected
}

/// The words of this leaf: half of the first ones of a rounding lie where it turns.
fn words_of(name: &str, r: &mut Rng) -> [u64; 4] {
    let mut w = words(r);
    if is_rounding(name) && r.one_in(2) {
        w[0] = turning_word(r);
    }
    w
}

/// The classes of a first word and of what is due.
fn classes(name: &str, word: u64, due: u64) -> impl Iterator<Item = LeafClass> {
    let rounded = is_rounding(name).then(|| rounding_classes::of(word));
    let rounded = rounded.into_iter().flatten().map(Rounds);
    met([(Moved, due != word), (Zero, due << 1 == 0)]).chain(rounded)
}

/// The first words at which a leaf differs from the published one, to the bit, with both results.
/// A leaf that was not tried on all that it must be differs too.
fn difference(name: &str, [mine, theirs]: [Leaf; 2], runs: u64, mut r: Rng) -> Option<String> {
    let mut tally = Tally::default();
    for _ in 0..runs {
        let w = words_of(name, &mut r);
        let (got, due) = (mine(w), theirs(w));
        if got != due {
            return Some(format!("{name} {w:X?}: got {got:016X}, due {due:016X}"));
        }
        classes(name, w[0], due).for_each(|class| tally.see(class));
    }
    let missing = tally.missing(&expected_classes(name));
    (!missing.is_empty()).then(|| format!("{name}: never met {missing:?}"))
}

/// Where the leaves differ from the published ones, each at first.
pub fn differences(subject: &Leaves, runs: u64, seed: u64) -> Vec<String> {
    let pairs = subject.each().into_iter().zip(PUBLISHED.each());
    let differences = pairs.enumerate().map(|(n, ((name, mine), (_, theirs)))| {
        difference(name, [mine, theirs], runs, Rng::new(seed, n as u64))
    });
    differences.flatten().collect()
}
