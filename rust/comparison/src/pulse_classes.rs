//! What a call of a variable pulse meets: its duty ratio, its width, its cycle and its hold, and how near the tick comes to where a
//! rule turns.
use crate::inputs::MINUS_ZERO;
use crate::model::leaves::real_of;
use crate::pulse::{Cycle, Pulse};
use crate::sides::{Side, side};
use crate::tally::met;
use crate::{Kind, model};

#[derive(Clone, Copy, Debug, PartialEq, Eq, PartialOrd, Ord)]
pub enum PulseClass {
    /// The input.
    Ratio(Ratio),
    /// How far the input lies from the sampled one, against delta_u: at it the width has not changed.
    Width(Side),
    /// The sampled word is a NaN: no input changes the width.
    NanSampled,
    /// An infinite input that is stored as the sampled one.
    InfiniteSampled,
    /// The period as it is set.
    Set(Set),
    /// The stored start of cycles that go on, at a ratio between 0 and 1. The classes up to `Boundless` are of such ticks.
    Anchor(Anchor),
    /// The time against a whole number of periods after the anchor.
    Multiple(Side),
    /// The time against the begin of its cycle, and against the end of the true part.
    Begin(Side),
    End(Side),
    /// The seconds of whole periods that are rounded to six places.
    Rounded(Sign),
    /// Rounding moves them.
    Moved(Sign),
    /// They lie in the middle of two such places, exactly.
    Half(Sign),
    /// They are too many for six places: the begin is infinite.
    Boundless,
    /// The cycle's output is not the held one: the timer with the gap, against the minimum hold.
    Differs(Side),
    /// It is the held one.
    Agrees,
    /// A first tick on a held word that is true, and what it answers.
    FirstHeld(bool),
    /// A setting at its limit or on the float beside it, and nothing else at fault.
    Limit(Limit, Side),
}

/// The sorts of a duty ratio.
#[derive(Clone, Copy, Debug, PartialEq, Eq, PartialOrd, Ord)]
pub enum Ratio {
    Nan,
    PlusInfinity,
    MinusInfinity,
    Negative,
    MinusZero,
    Zero,
    Between,
    One,
    AboveOne,
}

/// A set period, by what the block makes of it.
#[derive(Clone, Copy, Debug, PartialEq, Eq, PartialOrd, Ord)]
pub enum Set {
    Negative,
    Zero,
    /// Above zero, and below 2.02 times the minimum hold.
    Raised,
    /// That product exactly.
    Least,
    Longer,
    /// The product is infinite.
    Infinite,
}

/// A stored start of the cycles.
#[derive(Clone, Copy, Debug, PartialEq, Eq, PartialOrd, Ord)]
pub enum Anchor {
    NotFinite,
    Negative,
    /// So far from zero, 1e15 or more, that seconds lose their fractions.
    Huge,
    /// Above the tick's time.
    Ahead,
}

#[derive(Clone, Copy, Debug, PartialEq, Eq, PartialOrd, Ord)]
pub enum Sign {
    Negative,
    Zero,
    Positive,
}

/// The limits of document 02's request 3.
#[derive(Clone, Copy, Debug, PartialEq, Eq, PartialOrd, Ord)]
pub enum Limit {
    LeastDelta,
    MostDelta,
    LeastHold,
}

use PulseClass::*;

const KIND: Kind = Kind::LogicalVariablePulse;

impl Limit {
    const ALL: [Limit; 3] = [Limit::LeastDelta, Limit::MostDelta, Limit::LeastHold];

    /// The place of the setting, and the limit.
    fn place(self) -> (usize, f64) {
        match self {
            Limit::LeastDelta => (1, 0.01),
            Limit::MostDelta => (1, 0.5),
            Limit::LeastHold => (2, 1.0),
        }
    }

    fn class(self, s: &[u64]) -> Option<PulseClass> {
        let (place, limit) = self.place();
        let side = side(real_of(s[place]), limit, |x| x);
        side.map(|side| Limit(self, side))
    }

    /// Whether settings that are refused are so for this one alone.
    fn is_alone(self, s: &[u64]) -> bool {
        let (mut mended, (place, limit)) = (s.to_vec(), self.place());
        mended[place] = limit.to_bits();
        model::state_length(KIND, &mended).0 == 0
    }
}

/// All of them.
#[must_use]
pub fn all() -> Vec<PulseClass> {
    let ratios = [
        Ratio::Nan,
        Ratio::PlusInfinity,
        Ratio::MinusInfinity,
        Ratio::Negative,
        Ratio::MinusZero,
        Ratio::Zero,
        Ratio::Between,
        Ratio::One,
        Ratio::AboveOne,
    ];
    let sets = [
        Set::Negative,
        Set::Zero,
        Set::Raised,
        Set::Least,
        Set::Longer,
        Set::Infinite,
    ];
    let anchors = [
        Anchor::NotFinite,
        Anchor::Negative,
        Anchor::Huge,
        Anchor::Ahead,
    ];
    let mut all = vec![NanSampled, InfiniteSampled, Boundless, Agrees];
    all.extend(ratios.map(Ratio));
    all.extend(sets.map(Set));
    all.extend(anchors.map(Anchor));
    all.extend([Sign::Negative, Sign::Zero, Sign::Positive].map(Rounded));
    all.extend([Sign::Negative, Sign::Positive].map(Moved));
    all.extend([Sign::Negative, Sign::Positive].map(Half));
    all.extend([true, false].map(FirstHeld));
    for side in Side::ALL {
        all.extend([Width, Multiple, Begin, End, Differs].map(|of| of(side)));
        all.extend(Limit::ALL.map(|limit| Limit(limit, side)));
    }
    all
}

/// The classes of an accepted update, by the words before and after it.
#[must_use]
pub fn accepted(s: &[u64], inputs: &[u64], before: &[u64], after: &[u64]) -> Vec<PulseClass> {
    let Some(pulse) = Pulse::of(s, before) else {
        return vec![];
    };
    let (t, u) = (real_of(after[4]), real_of(inputs[0]));
    let ratio = ratio(inputs[0]);
    let mut classes = vec![Ratio(ratio), Set(set(&pulse))];
    classes.extend(width(&pulse, u).map(Width));
    classes.extend(Limit::ALL.iter().filter_map(|limit| limit.class(s)));
    classes.extend(met([
        (NanSampled, pulse.sampled().is_nan()),
        (
            InfiniteSampled,
            u.is_infinite() && real_of(after[0]).is_infinite(),
        ),
    ]));
    if ratio == Ratio::Between && pulse.goes_on(u) {
        classes.extend(cycling(&pulse, t, u));
    }
    classes.extend(match pulse.previous() {
        None => pulse.held().then_some(FirstHeld(after[2] != 0)),
        Some(_) if wants(s, inputs, before, after[4]) == pulse.held() => Some(Agrees),
        Some(previous) => side(t, pulse.hold(), |t| pulse.timer() + (t - previous)).map(Differs),
    });
    classes
}

/// The setting that is refused alone, if it lies beside its limit.
#[must_use]
pub fn refused(s: &[u64]) -> Option<PulseClass> {
    let alone = Limit::ALL.into_iter().filter(|limit| limit.is_alone(s));
    alone.filter_map(|limit| limit.class(s)).next()
}

fn ratio(word: u64) -> Ratio {
    match real_of(word) {
        _ if word == MINUS_ZERO => Ratio::MinusZero,
        f64::INFINITY => Ratio::PlusInfinity,
        f64::NEG_INFINITY => Ratio::MinusInfinity,
        0.0 => Ratio::Zero,
        1.0 => Ratio::One,
        ..0.0 => Ratio::Negative,
        ..1.0 => Ratio::Between,
        1.0.. => Ratio::AboveOne,
        _ => Ratio::Nan,
    }
}

fn set(pulse: &Pulse) -> Set {
    match pulse.period() {
        _ if pulse.least().is_infinite() => Set::Infinite,
        ..0.0 => Set::Negative,
        0.0 => Set::Zero,
        period if period < pulse.least() => Set::Raised,
        period if period == pulse.least() => Set::Least,
        _ => Set::Longer,
    }
}

/// Where the distance from the sampled input stands, which rises as the input goes away from it.
fn width(pulse: &Pulse, u: f64) -> Option<Side> {
    let (sampled, delta_u) = (pulse.sampled(), pulse.delta_u());
    if u < sampled {
        side(-u, delta_u, |v| sampled + v)
    } else {
        side(u, delta_u, |u| u - sampled)
    }
}

/// What the cycle wants: the answer with a timer that holds nothing back.
fn wants(s: &[u64], inputs: &[u64], before: &[u64], time: u64) -> bool {
    let mut free = before.to_vec();
    free[3] = f64::INFINITY.to_bits();
    model::emit(KIND, s, time, inputs, &free).boolean
}

/// What cycles meet that go on from their anchor.
fn cycling(pulse: &Pulse, t: f64, u: f64) -> Vec<PulseClass> {
    let (anchor, cycle) = (pulse.anchor(), pulse.cycle(t, u));
    if !anchor.is_finite() {
        return vec![Anchor(Anchor::NotFinite)];
    }
    let whole = Some(cycle.periods.round()).filter(|whole| *whole != 0.0);
    let periods = |t: f64| (t - anchor) / pulse.adjusted();
    let sides = [
        whole
            .and_then(|whole| side(t, whole, periods))
            .map(Multiple),
        side(t, cycle.begin, |t| t).map(Begin),
        side(t, cycle.end, |t| t).map(End),
    ];
    let mut classes: Vec<PulseClass> = sides.into_iter().flatten().collect();
    classes.extend(met([
        (Anchor(Anchor::Negative), anchor < 0.0),
        (Anchor(Anchor::Huge), anchor.abs() >= 1e15),
        (Anchor(Anchor::Ahead), anchor > t),
        (
            Boundless,
            cycle.passed.is_finite() && !cycle.begin.is_finite(),
        ),
    ]));
    classes.extend(rounding(&cycle));
    classes
}

fn rounding(cycle: &Cycle) -> Vec<PulseClass> {
    let sign = match cycle.passed {
        0.0 => Sign::Zero,
        0.0.. => Sign::Positive,
        ..0.0 => Sign::Negative,
        _ => return vec![], // of an infinite period
    };
    let moved = sign != Sign::Zero && cycle.rounded != cycle.passed;
    let is_half = (cycle.passed * 1e6).fract().abs() == 0.5;
    let met = met([
        (Rounded(sign), true),
        (Moved(sign), moved),
        (Half(sign), is_half),
    ]);
    met.collect()
}
