//! Settings in source order.
use super::reals::{NANS, NOT_FINITE, infinity, tame, wild, zero};
use super::{Rng, any_bool, pulses};
use crate::{Kind, model};

/// Settings of which one in 60 has a number that is not finite. Their booleans are any words.
pub fn settings(r: &mut Rng, kind: Kind) -> Vec<u64> {
    let s = finite_settings(r, kind);
    spoiled(r, kind, s)
}

/// One in 60 with a number that is not finite.
pub(super) fn spoiled(r: &mut Rng, kind: Kind, mut s: Vec<u64>) -> Vec<u64> {
    if r.one_in(60) {
        let reals = kind.settings().match_indices('r');
        let places: Vec<usize> = reals.map(|(n, _)| n).collect();
        let place = r.pick(&places);
        s[place] = if r.one_in(2) {
            r.pick(&NANS)
        } else {
            infinity(r)
        };
    }
    s
}

/// Puts in a setting that is refused: a real that is not finite, or half the time of a pulse one that lies beside its limit.
pub fn refuse_setting(r: &mut Rng, kind: Kind, s: &mut [u64]) {
    if kind == Kind::LogicalVariablePulse && r.one_in(2) {
        return pulses::refuse_setting(r, s);
    }
    let reals: Vec<_> = kind.settings().match_indices('r').collect();
    s[r.pick(&reals).0] = r.pick(&NOT_FINITE);
}

/// The settings of document 01's rows P3 to P6, which differ in type, k and `y_reset`.
#[must_use]
pub fn bench_controller(mode: u64, k: f64, y_reset: f64) -> Vec<u64> {
    let numbers = [k, 0.5, 0.1, 1.0, 1.0, 0.0, 0.9, 10.0, 0.0, 0.0, y_reset];
    let mut s = vec![mode];
    s.extend(numbers.map(f64::to_bits));
    s.push(1);
    s
}

/// Settings that are not refused.
pub fn accepted_settings(r: &mut Rng, kind: Kind) -> Vec<u64> {
    loop {
        let s = finite_settings(r, kind);
        if model::state_length(kind, &s).0 == 0 {
            return s;
        }
    }
}

fn finite_settings(r: &mut Rng, kind: Kind) -> Vec<u64> {
    let calm = !r.one_in(4);
    let item = |item| match item {
        b'c' => r.below(4),
        b'b' => any_bool(r),
        _ if calm => tame(r).to_bits(),
        _ => wild(r).to_bits(),
    };
    let mut s: Vec<u64> = kind.settings().bytes().map(item).collect();
    match kind {
        Kind::Pid | Kind::PidWithReset if calm => calm_controller(r, &mut s),
        Kind::LogicalVariablePulse => pulses::settings(r, &mut s, calm),
        Kind::MovingAverage => s[0] = delta(r).to_bits(),
        _ => {}
    }
    s
}

/// Mostly gains above the floor and limits in order; at times zeros of either sign with limits
/// around them, so that the sign of a zero sum shows.
fn calm_controller(r: &mut Rng, s: &mut [u64]) {
    for n in [1, 2, 3, 4, 7, 8] {
        if !r.one_in(4) {
            s[n] = (f64::from_bits(s[n]).abs() + 0.1).to_bits();
        }
    }
    if !r.one_in(4) && f64::from_bits(s[5]) < f64::from_bits(s[6]) {
        s.swap(5, 6);
    }
    if r.one_in(4) {
        for n in [9, 10, 11] {
            s[n] = zero(r);
        }
        (s[5], s[6]) = (1f64.to_bits(), (-1f64).to_bits());
    }
}

/// Short windows make the ring small; now and then one that sizes it, or the largest ring.
fn delta(r: &mut Rng) -> f64 {
    if r.one_in(400) {
        return r.pick(&[65535.0, 65535.5, 65536.0, 65537.0, 1e6, f64::MAX]);
    }
    match r.below(12) {
        0 => wild(r).min(2000.0),
        1 => 1024.0 + r.below(64) as f64 / 16.0,
        2 => r.unit() * 1e-4,
        _ => r.below(200) as f64 / 8.0,
    }
}
