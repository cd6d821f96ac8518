//! What an accepted update did, by the words before and after it.
use crate::inputs::MINUS_ZERO;
use crate::lengths::Off;
use crate::model::leaves::UNSET;
use crate::pulse_classes;
use crate::ring_classes;
use crate::sound_classes;
use crate::tally::{Class, Word, met};
use crate::{Kind, model};

/// The classes of an update but for its warning.
pub fn effects(kind: Kind, s: &[u64], inputs: &[u64], before: &[u64], after: &[u64]) -> Vec<Class> {
    let mut classes = vec![];
    if kind == Kind::MovingAverage {
        classes = ring_effects((before[3], before[4]), after);
        let met = ring_classes::accepted(s, before, after);
        classes.extend(met.into_iter().map(Class::Ring));
    }
    if kind == Kind::LogicalVariablePulse {
        let met = pulse_classes::accepted(s, inputs, before, after);
        classes.extend(met.into_iter().map(Class::Pulse));
    }
    let times = kind.time_place(s).map(|n| (before[n], after[n]));
    let first = times.is_some_and(|(previous, _)| previous == UNSET);
    let wiping = is_wiping(kind, s, inputs, before);
    if kind.is_controller() {
        classes.extend(met(controller_tick(s, inputs)));
        if first {
            classes.extend(met(controller_start(s, before)));
        }
        if wiping {
            classes.extend(met(controller_reset(s, before)));
        }
    }
    classes.extend(Word::settings(kind, s).map(Class::BooleanSetting));
    let back_to_minus_zero = times == Some((ZERO, MINUS_ZERO)) && !wiping;
    let minus_zero_sum = back_to_minus_zero && keeps_minus_zero(kind, s, inputs, before, after);
    let gap = times.map(|(previous, time)| f64::from_bits(time) - f64::from_bits(previous));
    let infinite = !first && gap.is_some_and(f64::is_infinite);
    classes.extend(met([
        (Class::FirstTick, first),
        (Class::InfiniteGap, infinite),
        (Class::MinusZeroSum, minus_zero_sum),
        (Class::Wiping, wiping),
    ]));
    classes
}

/// The classes of a refusal beside its number.
pub fn faults(kind: Kind, refused: u64, s: &[u64], region: &[u64]) -> Vec<Class> {
    match (kind, refused) {
        (_, 3) => {
            let (_, due) = model::state_length(kind, s);
            Off::of(region.len(), due).map(Class::Length).collect()
        }
        (Kind::LogicalVariablePulse, 2) => {
            let limit = pulse_classes::refused(s);
            limit.into_iter().map(Class::Pulse).collect()
        }
        (Kind::MovingAverage, 6) => {
            let damage = ring_classes::damage(s, region);
            damage.into_iter().map(Class::Ring).collect()
        }
        _ => vec![],
    }
}

/// The classes of a region that is taken apart with this refusal.
pub fn decoded(kind: Kind, refused: u64, s: &[u64], region: &[u64]) -> Vec<Class> {
    let mut classes = vec![Class::Decoded(refused)];
    if kind == Kind::MovingAverage && refused == 0 {
        let met = sound_classes::of(s, region);
        classes.extend(met.into_iter().map(Class::Sound));
    }
    classes
}

const ZERO: u64 = 0;

/// The place of what the gap is added to: a timer's sum, or an integral, to which it is added times a rate.
fn sum_place(kind: Kind, s: &[u64]) -> Option<usize> {
    match kind {
        Kind::Pid | Kind::PidWithReset => (s[0] & 1 == 1).then_some(0),
        Kind::MovingAverage | Kind::TimerAccumulating | Kind::TrueDelay => Some(0),
        Kind::TrueFalseHold | Kind::TrueHoldWithReset => Some(1),
        Kind::LogicalVariablePulse => Some(3),
    }
}

/// Whether a tick that wipes nothing has added the gap to a -0.0 and left one. Where none is added the others leave 0.0, but an
/// accumulating timer keeps its total.
fn keeps_minus_zero(kind: Kind, s: &[u64], inputs: &[u64], before: &[u64], after: &[u64]) -> bool {
    let adds = kind != Kind::TimerAccumulating || (inputs[0] != 0 && before[2] != 0);
    let stays = |n: usize| (before[n], after[n]) == (MINUS_ZERO, MINUS_ZERO);
    adds && sum_place(kind, s).is_some_and(stays)
}

/// What a controller's tick meets by its settings and inputs.
fn controller_tick(s: &[u64], inputs: &[u64]) -> [(Class, bool); 5] {
    let real = |n: usize| f64::from_bits(s[n]);
    let difference = f64::from_bits(inputs[0]) - f64::from_bits(inputs[1]);
    [
        (Class::Type(s[0]), true),
        (Class::EqualInputs, s[12] == 0 && difference == 0.0),
        (Class::CrossedLimits, real(6) > real(5)),
        (Class::ZeroSetting(false), s[1..12].contains(&ZERO)),
        (Class::ZeroSetting(true), s[1..12].contains(&MINUS_ZERO)),
    ]
}

/// What a controller's first tick meets; one without I and D has none.
fn controller_start(s: &[u64], before: &[u64]) -> [(Class, bool); 4] {
    let real = |n: usize| f64::from_bits(s[n]);
    let (with_i, with_d) = (s[0] & 1 == 1, s[0] & 2 == 2);
    let gain = real(1).max(1e-13) * real(3).max(1e-13);
    [
        (Class::ZeroStart(false), with_i && before[0] == ZERO),
        (Class::ZeroStart(true), with_i && before[0] == MINUS_ZERO),
        (Class::DerivativeStart, with_d && real(10) != 0.0),
        (Class::TinyGain, with_d && gain < 1e-15),
    ]
}

/// What a rising trigger meets: with one there is an integrator.
fn controller_reset(s: &[u64], before: &[u64]) -> [(Class, bool); 3] {
    [
        (Class::ZeroReset(false), s[11] == ZERO),
        (Class::ZeroReset(true), s[11] == MINUS_ZERO),
        (Class::NanReset, f64::from_bits(before[0]).is_nan()),
    ]
}

/// A rising trigger or reset, a false input of a delay, a clear of a hold.
fn is_wiping(kind: Kind, s: &[u64], inputs: &[u64], before: &[u64]) -> bool {
    match kind {
        Kind::PidWithReset => {
            let stored = kind.words(s).find('b').map(|n| before[n]);
            inputs[2] != 0 && stored == Some(0)
        }
        Kind::TimerAccumulating => inputs[1] != 0 && before[3] == 0,
        Kind::TrueDelay => inputs[0] == 0,
        Kind::TrueHoldWithReset => inputs[1] != 0,
        _ => false,
    }
}

/// What happened to a moving average's ring, by head and count before and the region after.
pub fn ring_effects((head, count): (u64, u64), after: &[u64]) -> Vec<Class> {
    let (pruned, grew) = (after[3] != head, after[4] > count);
    met([
        (Class::Pruned, pruned),
        (Class::Appended, grew),
        (Class::Overwritten, !pruned && !grew),
    ])
    .collect()
}
