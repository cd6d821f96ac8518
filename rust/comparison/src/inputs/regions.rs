//! State words of every sort.
use super::reals::{MINUS_ZERO, wild, zero};
use super::{Rng, any_bool, any_real, pulses, tame};
use crate::lengths::other_length;
use crate::model::leaves::UNSET;
use crate::{Kind, model};

/// A region for the settings: one in five freshly started, the rest of any words, and of these one in eight at rest at zero; one
/// in 25 of a wrong length.
pub fn region(r: &mut Rng, kind: Kind, s: &[u64]) -> Vec<u64> {
    region_with(r, kind, s, any_points)
}

/// How a ring's points lie: the last one's time, whether those before it are in order, and the unit of their distances.
pub(super) struct Points {
    pub last: f64,
    pub ordered: bool,
    pub step: f64,
}

/// Such a region, with the points of a moving average by a generator that is told its settings and its first words.
pub(super) fn region_with(
    r: &mut Rng,
    kind: Kind,
    s: &[u64],
    points: fn(&mut Rng, &[u64], &[u64]) -> Points,
) -> Vec<u64> {
    let (refused, length) = model::state_length(kind, s);
    if refused != 0 {
        return vec![0; r.below(8) as usize];
    }
    let mut w = vec![0; length];
    if r.one_in(5) {
        model::start(kind, s, &mut w);
    } else {
        let rests = r.one_in(8);
        for (n, item) in kind.words(s).bytes().enumerate() {
            w[n] = if rests {
                resting_word(r, item)
            } else {
                any_word(r, item)
            };
        }
        if kind == Kind::MovingAverage {
            fill_ring(r, &mut w, |r, w| points(r, s, w));
        }
        if kind == Kind::LogicalVariablePulse && !rests && !r.one_in(4) {
            pulses::put_words(r, s, &mut w);
        }
    }
    if r.one_in(25) {
        w.resize(other_length(r, length), 0);
    }
    w
}

fn any_word(r: &mut Rng, item: u8) -> u64 {
    match item {
        b'r' => any_real(r),
        b'b' => any_bool(r),
        b't' => previous_time(r),
        _ => 0,
    }
}

/// The previous time is 0.0 and every real -0.0: a tick at -0.0 then adds one -0.0 to another.
fn resting_word(r: &mut Rng, item: u8) -> u64 {
    match item {
        b'r' => MINUS_ZERO,
        b't' => 0,
        _ => any_word(r, item),
    }
}

/// Mostly tame; also the marker, a neighbour of it, zeros of either sign, and any real.
fn previous_time(r: &mut Rng) -> u64 {
    match r.below(24) {
        0 => any_real(r),
        1..=3 => UNSET,
        4 => UNSET - 1,
        5 | 6 => wild(r).to_bits(),
        7 | 8 => zero(r),
        _ => tame(r).to_bits(),
    }
}

/// Fills head, count, coalesced and the ring of a moving average: in order or not, full or not,
/// damaged or not.
fn fill_ring(r: &mut Rng, w: &mut [u64], points: impl Fn(&mut Rng, &[u64]) -> Points) {
    let capacity = (w.len() - 6) / 2;
    let count = ring_count(r, capacity);
    let head = if r.one_in(2) {
        r.below(capacity as u64) as usize
    } else {
        capacity - 1 - r.below(8) as usize
    };
    let points = points(r, w);
    fill_points(r, w, head, count, &points);
    w[3] = head as u64;
    w[4] = count as u64;
    w[5] = any_bool(r);
    if r.one_in(24) {
        w[3] = r.pick(&[capacity as u64, capacity as u64 + 1, u64::MAX, 1 << 63]);
    }
    if r.one_in(24) {
        w[4] = r.pick(&[capacity as u64 + 1, u64::MAX, 1 << 63]);
    }
}

/// Mostly few points; also none, any number, and a ring that is full or nearly so.
fn ring_count(r: &mut Rng, capacity: usize) -> usize {
    match r.below(8) {
        0 => capacity,
        1 => capacity - 1 - r.below(3) as usize,
        2 => 0,
        3 => r.below(capacity as u64 + 1) as usize,
        _ => r.below(12) as usize,
    }
}

/// Mostly in order and up to the previous time.
fn any_points(r: &mut Rng, _: &[u64], w: &[u64]) -> Points {
    let last = match r.below(6) {
        0 => wild(r),
        1 => f64::from_bits(zero(r)),
        _ if w[2] != UNSET => f64::from_bits(w[2]),
        _ => tame(r),
    };
    Points {
        last,
        ordered: !r.one_in(4),
        step: r.pick(&[0.25, 1.0, 0.001, 0.0, 0.01]),
    }
}

/// Writes the points from the last back to the first.
fn fill_points(r: &mut Rng, w: &mut [u64], head: usize, count: usize, points: &Points) {
    let capacity = (w.len() - 6) / 2;
    let mut t = points.last;
    for n in (0..count).rev() {
        let slot = (head + n) % capacity;
        w[6 + slot] = if points.ordered {
            t.to_bits()
        } else {
            any_real(r)
        };
        w[6 + capacity + slot] = any_real(r);
        t -= points.step * r.below(4) as f64;
    }
}
