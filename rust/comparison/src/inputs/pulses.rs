//! Settings, regions and ticks of a variable pulse that lie where its rules turn.
use super::reals::{beside, next_down, next_up, tame, wild};
use super::{NOT_FINITE, Rng, any_bool, any_real};
use crate::pulse::Pulse;

/// Puts in settings that are mostly within the limits of document 02's request 3; one in 16 is at fault, mostly by a float.
pub(super) fn settings(r: &mut Rng, s: &mut [u64], calm: bool) {
    let hold = hold(r, calm);
    s[0] = period(r, hold, calm).to_bits();
    s[1] = delta_u(r).to_bits();
    s[2] = hold.to_bits();
    if r.one_in(16) {
        match r.below(4) {
            0 => s[1 + r.below(2) as usize] = any_real(r),
            _ => refuse_setting(r, s),
        }
    }
}

/// Puts in the float beside a limit that is refused.
pub(super) fn refuse_setting(r: &mut Rng, s: &mut [u64]) {
    let beside = [(1, next_down(0.01)), (1, next_up(0.5)), (2, next_down(1.0))];
    let (place, word) = r.pick(&beside);
    s[place] = word.to_bits();
}

/// Some seconds; or of any size, up to one whose least period is infinite.
fn hold(r: &mut Rng, calm: bool) -> f64 {
    match r.below(4) {
        0 => 1.0,
        1 => next_up(1.0),
        _ if calm => 1.0 + r.below(20) as f64 / 4.0,
        2 => wild(r).abs().max(1.0),
        _ => r.pick(&[8.8e307, 8.9e307, 1e308, f64::MAX]),
    }
}

/// The least period that the hold leaves or a float beside it, a longer one, or one that is raised. An odd number of 128ths has
/// multiples that lie in the middle of two millionths.
fn period(r: &mut Rng, hold: f64, calm: bool) -> f64 {
    let least = hold * 2.02;
    match r.below(8) {
        0 if least.is_finite() => beside(r, least),
        1 => r.pick(&[0.0, -0.0, -1.0, -5e-324, 5e-324, -1e300]),
        2 if !calm => wild(r),
        3 | 4 => (2.0 * hold.min(1e6)).ceil() + (2 * r.below(400) + 1) as f64 / 128.0,
        5 => hold.min(1e6) * (2.0 + 4.0 * r.unit()),
        _ => r.below(400) as f64 / 10.0,
    }
}

fn delta_u(r: &mut Rng) -> f64 {
    match r.below(8) {
        0 => 0.01,
        1 => 0.5,
        2 => r.pick(&[next_up(0.01), next_down(0.5)]),
        3 => 0.01 + 0.49 * r.unit(),
        _ => r.pick(&[0.02, 0.1, 0.125, 0.25, 0.375, 0.157]),
    }
}

/// Puts in words that a pulse could have: a ratio, a cycle that began some periods ago or will begin, mostly a timer that lets the
/// output change, and the previous time as it is.
pub(super) fn put_words(r: &mut Rng, s: &[u64], w: &mut [u64]) {
    w[0] = match r.below(8) {
        0 => r.pick(&NOT_FINITE),
        1..=4 => (r.below(65) as f64 / 64.0).to_bits(),
        _ => r.unit().to_bits(),
    };
    w[2] = any_bool(r);
    let pulse = Pulse::of(s, w).expect("a pulse has five words");
    let (period, hold) = (pulse.adjusted(), pulse.hold());
    let previous = pulse.previous().filter(|t| t.is_finite()).unwrap_or(0.0);
    let periods = r.below(12) as f64 - 6.0;
    let anchor = match r.below(16) {
        0 => f64::from_bits(r.pick(&NOT_FINITE)),
        1 => r.pick(&[1e15, 4e15, 9e15, 1e16, 1e18, 1e300, -1e15, -3e15, -1e300]),
        2..=4 => previous - periods * period,
        5..=7 => tame(r),
        8..=10 => previous - periods,
        _ => previous - (periods + r.unit()) * period,
    };
    let timer = match r.below(8) {
        0 => 0.0,
        1 => hold * r.unit(),
        2 => beside(r, hold),
        3 => tame(r),
        _ => hold + r.below(100) as f64,
    };
    (w[1], w[3]) = (anchor.to_bits(), timer.to_bits());
}

/// A time and a ratio at which a rule turns, or next to it; none if the tick is refused.
pub(super) fn tick(r: &mut Rng, s: &[u64], w: &[u64]) -> Option<(u64, u64)> {
    let pulse = Pulse::of(s, w)?;
    let u = ratio(r, &pulse);
    let t = time(r, &pulse, u);
    let is_later = pulse.previous().is_none_or(|previous| t >= previous);
    (t.is_finite() && is_later).then_some((t.to_bits(), u.to_bits()))
}

/// Mostly the sampled one, or one that lies delta_u away from it; at times at a limit, or no number.
fn ratio(r: &mut Rng, pulse: &Pulse) -> f64 {
    let sampled = pulse.sampled();
    let within = (0.0..=1.0).contains(&sampled);
    match r.below(16) {
        0..=5 if within => sampled,
        6 | 7 if within => beside(r, sampled + pulse.delta_u()),
        8 | 9 if within => beside(r, sampled - pulse.delta_u()),
        10 => r.pick(&[0.0, -0.0, 1.0, 1.0, 1.5, -0.5, 5e-324, -5e-324]),
        11 => beside(r, 1.0),
        12 if r.one_in(2) => f64::from_bits(r.pick(&NOT_FINITE)),
        13 => r.below(65) as f64 / 64.0,
        _ => r.unit(),
    }
}

/// A time from the previous one on: whole periods after the anchor, the begin of a cycle, the end of its true part, the end of the
/// minimum hold; or any.
fn time(r: &mut Rng, pulse: &Pulse, u: f64) -> f64 {
    let (anchor, period) = (pulse.anchor(), pulse.adjusted());
    let previous = pulse.previous().unwrap_or_else(|| tame(r));
    let passed = ((previous - anchor) / period).ceil() + r.below(3) as f64;
    let multiple = anchor + passed * period;
    let cycle = pulse.cycle(multiple + 0.25 * period, u);
    let t = match r.below(16) {
        0..=3 => multiple,
        4..=6 => cycle.begin,
        7..=9 => cycle.end,
        10..=12 => previous + (pulse.hold() - pulse.timer()),
        13 => return previous,
        14 => return previous + period * r.unit(),
        _ => return previous + r.below(12) as f64 * 0.25,
    };
    if r.one_in(2) { t } else { beside(r, t) }
}
