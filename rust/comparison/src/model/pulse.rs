//! The variable pulse of document 02, request 3, within its limits.
//! The document names the words; the rule is the published block's, written anew.
use super::leaves::{UNSET, absolute, ceil, floor, is_finite, real_of, tick_dt, word_of};
use super::timers::{Step, hold};

/// Rounded to six places, half away from zero.
fn round_six(x: f64) -> f64 {
    if x > 0.0 {
        floor((x * 1e6) + 0.5) / 1e6
    } else {
        ceil((x * 1e6) - 0.5) / 1e6
    }
}

/// Whether a cycle that began at `origin` is in its true part.
fn cycle(time: f64, u: f64, origin: f64, period: f64) -> bool {
    if !is_finite(word_of(origin)) || !is_finite(word_of(u)) || u <= 0.0 {
        false
    } else if u >= 1.0 {
        true
    } else {
        let begin = origin + round_six(floor((time - origin) / period) * period);
        time >= begin && time < begin + (u * period)
    }
}

/// Words: sampled input, cycle start, held output, timer, previous time.
pub(super) fn variable_pulse(s: &[u64], time: f64, inputs: &[u64], w: &[u64]) -> Step {
    let (delta_u, least_hold) = (real_of(s[1]), real_of(s[2]));
    let least_period = least_hold * 2.02;
    let period = if real_of(s[0]) < least_period {
        least_period
    } else {
        real_of(s[0])
    };
    let u = real_of(inputs[0]);
    let first = w[4] == UNSET;
    let changed = absolute(real_of(w[0]) - u) > delta_u;
    let origin = if first || changed {
        time
    } else {
        real_of(w[1])
    };
    let timer = real_of(w[3]) + tick_dt(time, w[4]);
    let wanted = cycle(time, u, origin, period);
    let (y, timer) = hold(first, wanted, w[2] != 0, timer, least_hold);
    let sampled = if changed { u } else { real_of(w[0]) };
    Step {
        real: 0.0,
        boolean: y,
        next: [
            word_of(sampled),
            word_of(origin),
            y.into(),
            word_of(timer),
            word_of(time),
        ],
    }
}
