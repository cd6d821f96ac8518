//! The generators of a comparison: those of the stored lists, but for a moving average windows of every size, rings whose
//! points lie close or that are sound but for one thing, and times at which a rule turns.
use super::reals::{beside, next_down, next_up, wild};
use super::regions::{Points, region_with};
use super::settings::spoiled;
use super::{Rng, rings, tame};
use crate::ring::Ring;
use crate::{Kind, model};

/// Settings of which one in 60 has a number that is not finite.
pub fn settings(r: &mut Rng, kind: Kind) -> Vec<u64> {
    if kind != Kind::MovingAverage {
        return super::settings(r, kind);
    }
    let delta = window(r);
    spoiled(r, kind, vec![delta.to_bits()])
}

/// Mostly short: a long window has a large ring.
fn window(r: &mut Rng) -> f64 {
    match r.below(256) {
        0 => longest(r),
        1..=4 => middle(r),
        5..=24 => beside(r, 1024.0),
        25..=39 => r.unit() * 1024.0,
        40..=49 => r.unit() * 1e-4,
        50..=59 => beside(r, 1e-5),
        60..=79 => wild(r).min(1e-5),
        _ => r.below(200) as f64 / 8.0,
    }
}

/// Of the largest ring, or nearly so.
fn longest(r: &mut Rng) -> f64 {
    let (below, above) = (next_down(65536.0), next_up(65536.0));
    if r.one_in(2) {
        65536.0
    } else {
        r.pick(&[65535.0, 65535.5, below, above, 1e6, f64::MAX])
    }
}

/// From 1024 up to 65536, as many between any one and its double; half of them whole.
fn middle(r: &mut Rng) -> f64 {
    let delta = (1024 << r.below(6)) as f64 * (1.0 + r.unit());
    if r.one_in(2) { delta.ceil() } else { delta }
}

/// A region for the settings. Half of the rings have points as close as they are kept apart; a quarter is sound or has one thing
/// wrong.
pub fn region(r: &mut Rng, kind: Kind, s: &[u64]) -> Vec<u64> {
    let (refused, length) = model::state_length(kind, s);
    if kind != Kind::MovingAverage || refused != 0 {
        return super::region(r, kind, s);
    }
    match r.below(4) {
        0 => super::region(r, kind, s),
        1 => rings::region(r, length),
        _ => region_with(r, kind, s, close_points),
    }
}

/// In order, up to the previous time, some halves of the resolution or some resolutions apart.
fn close_points(r: &mut Rng, s: &[u64], w: &[u64]) -> Points {
    let ring = Ring::of(s, w).expect("a region of the right length has one");
    Points {
        last: ring.previous().unwrap_or_else(|| tame(r)),
        ordered: true,
        step: ring.resolution() * r.pick(&[0.5, 1.0]),
    }
}

/// A tick's time to follow the region's previous one, and its inputs.
pub fn tick(r: &mut Rng, kind: Kind, s: &[u64], region: &[u64]) -> (u64, [u64; 3]) {
    let ring = Ring::of(s, region).filter(|_| kind == Kind::MovingAverage && r.one_in(2));
    match ring.and_then(|ring| turning_time(r, &ring)) {
        Some(time) => (time, super::tick_inputs(r, kind)),
        None => super::tick(r, kind, s, region),
    }
}

/// A time at which a rule of the moving average turns, or a float beside it; none if it is refused.
fn turning_time(r: &mut Rng, ring: &Ring) -> Option<u64> {
    let count = ring.count().min(ring.capacity());
    let back = |n: u64| ring.time(count.saturating_sub(n));
    let t = match r.below(8) {
        0 => ring.start() + ring.delta,
        1 => ring.time(1) + ring.delta,
        2 => ring.time(r.below(count.max(1))) + ring.delta,
        3 | 4 => back(2) + 2.0 * ring.resolution(),
        5 => back(1),
        6 => -back(1),
        _ => back(1) + ring.resolution() * r.below(5) as f64 * 0.5,
    };
    let t = if r.one_in(2) { t } else { beside(r, t) };
    let refused = !t.is_finite() || ring.previous().is_some_and(|previous| t < previous);
    (!refused).then_some(t.to_bits())
}
