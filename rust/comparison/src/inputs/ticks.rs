//! The time and the inputs of a tick.
use super::reals::{MINUS_ZERO, NANS, infinity, wild};
use super::{Rng, any_bool, any_real, pulses};
use crate::Kind;
use crate::model::leaves::UNSET;

/// Three inputs. Those that the block lacks are any word: nothing may depend on them.
pub fn tick_inputs(r: &mut Rng, kind: Kind) -> [u64; 3] {
    let mut inputs = [0; 3];
    for (n, input) in inputs.iter_mut().enumerate() {
        *input = match kind.inputs().as_bytes().get(n) {
            Some(b'r') => any_real(r),
            _ => any_bool(r),
        };
    }
    // equal inputs of a controller: an error that is a zero, of either sign
    if kind.is_controller() && r.one_in(4) {
        inputs[1] = inputs[0];
    }
    inputs
}

/// A tick's time to follow the region's previous one, and its inputs. Most of a variable pulse lie where a rule turns.
pub fn tick(r: &mut Rng, kind: Kind, s: &[u64], region: &[u64]) -> (u64, [u64; 3]) {
    if kind == Kind::LogicalVariablePulse && !r.one_in(4) {
        if let Some((time, u)) = pulses::tick(r, s, region) {
            return (time, [u, any_bool(r), any_bool(r)]);
        }
    }
    (tick_time(r, kind, s, region), tick_inputs(r, kind))
}

/// A time to follow the region's previous one.
pub fn tick_time(r: &mut Rng, kind: Kind, s: &[u64], region: &[u64]) -> u64 {
    if kind == Kind::MovingAverage && region.len() > 6 && r.one_in(3) {
        return edge_time(r, s, region);
    }
    let place = kind.time_place(s);
    let word = place.and_then(|n| region.get(n)).copied();
    if word == Some(0) && r.one_in(2) {
        return MINUS_ZERO; // equal to it, and the gap is -0.0
    }
    let previous = word.map(f64::from_bits).filter(|t| t.is_finite());
    time_after(r, previous.unwrap_or(0.0))
}

/// Mostly a step ahead; sometimes equal, of the other sign, just above, below, or no number.
pub fn time_after(r: &mut Rng, previous: f64) -> u64 {
    let t = match r.below(40) {
        0 => return r.pick(&NANS),
        1 => return infinity(r),
        2 => wild(r),
        3 | 4 => previous,
        5 => -previous,
        6 => f64::from_bits(previous.to_bits().wrapping_add(1)),
        7 => f64::from_bits(previous.to_bits().wrapping_sub(1)),
        8 => previous - 1.0,
        9 => f64::MAX,
        10 | 11 => previous + r.unit() * 1e-3,
        12..=15 => previous + r.unit(),
        16 => previous + r.unit() * 1000.0,
        _ => previous + r.below(12) as f64 * 0.25,
    };
    if t.is_nan() { 0 } else { t.to_bits() }
}

/// A time at which a moving average decides: the end of its first window, the end of a window
/// from the previous time, its negative, or a step of half the ring's resolution or more.
fn edge_time(r: &mut Rng, s: &[u64], region: &[u64]) -> u64 {
    let delta = f64::from_bits(s[0]).max(1e-5);
    let slots = (region.len().max(16) - 14) / 2;
    let resolution = delta / slots as f64;
    let previous = match region[2] {
        UNSET => 0.0,
        word => f64::from_bits(word),
    };
    let t = match r.below(4) {
        0 => f64::from_bits(region[1]) + delta,
        1 => previous + delta,
        2 if r.one_in(2) => -previous,
        n => previous + resolution * n as f64 * 0.5,
    };
    if t.is_finite() { t.to_bits() } else { 0 }
}
