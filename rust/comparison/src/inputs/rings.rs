//! Rings of a moving average as document 02's request 2 has them: sound, with all that could be taken for wrong; or with one thing
//! wrong.
use super::reals::{NANS, infinity, next_down, next_up, tame, wild, zero};
use super::{Rng, any_bool, any_real};
use crate::model::leaves::{UNSET, real_of};
use crate::ring::{capacity, time_place};

/// A region of this length; half of the rings have one thing wrong.
pub(super) fn region(r: &mut Rng, length: usize) -> Vec<u64> {
    let mut w = vec![0; length];
    (w[0], w[1], w[5]) = (any_real(r), any_real(r), any_bool(r));
    w[2] = match r.below(4) {
        0 | 1 => zero(r),
        2 => wild(r).to_bits(),
        _ => tame(r).to_bits(),
    };
    w[4] = count(r, capacity(&w));
    w[3] = head(r, capacity(&w), w[4]);
    put_points(r, &mut w);
    put_strays(r, &mut w);
    if w[4] > 0 && r.one_in(2) {
        spoil(r, &mut w);
    }
    w
}

/// Mostly few points; also one, none, and a ring that is full or nearly so.
fn count(r: &mut Rng, capacity: u64) -> u64 {
    match r.below(16) {
        0 => capacity,
        1 => capacity - 1 - r.below(3),
        2 | 3 => 0,
        4 | 5 => 1,
        _ => 2 + r.below(10),
    }
}

/// Mostly points that run past the last slot: behind the first, before the last, or anywhere.
fn head(r: &mut Rng, capacity: u64, count: u64) -> u64 {
    let any = r.below(capacity);
    if count < 2 || r.one_in(4) {
        return r.pick(&[0, capacity - 1, any]);
    }
    capacity - r.pick(&[1, count - 1, 1 + any % (count - 1)])
}

/// From the previous time back, or from a second before it. Many have equal times, and a zero has either sign.
fn put_points(r: &mut Rng, w: &mut [u64]) {
    let step = r.pick(&[0.0, 0.0, 0.25, 1.0, 1e-3]);
    let mut t = real_of(w[2]) - r.pick(&[0.0, 0.0, 1.0]);
    for n in (0..w[4]).rev() {
        let place = time_place(w, n);
        w[place] = if t == 0.0 { zero(r) } else { t.to_bits() };
        w[place + capacity(w) as usize] = any_real(r);
        t -= step * r.below(3) as f64;
    }
}

/// Words that would be wrong as a point's time, in the last free slot, in any and in the first: nobody may look at them.
fn put_strays(r: &mut Rng, w: &mut [u64]) {
    let (count, capacity, previous) = (w[4], capacity(w), real_of(w[2]));
    if count == capacity {
        return;
    }
    let last = count.checked_sub(1).map(|n| real_of(w[time_place(w, n)]));
    for n in [capacity - 1, count + r.below(capacity - count), count] {
        w[time_place(w, n)] = match r.below(5) {
            0 => r.pick(&NANS),
            1 => infinity(r),
            2 => next_down(last.unwrap_or(previous)).to_bits(),
            3 => next_up(previous).to_bits(),
            _ => any_real(r),
        };
    }
}

/// Makes one thing wrong: a time at the first, any or the last position, in the last slot or in slot 0, the last time, or the previous
/// one.
fn spoil(r: &mut Rng, w: &mut [u64]) {
    let (last, of_slot_0) = (w[4] - 1, capacity(w) - w[3]);
    let places = [0, r.below(w[4]), last, of_slot_0 - 1, of_slot_0];
    let n = r.pick(&places).min(last);
    let place = time_place(w, n);
    match r.below(8) {
        0 => w[place] = r.pick(&NANS),
        1 => w[place] = f64::INFINITY.to_bits(),
        2 => w[place] = f64::NEG_INFINITY.to_bits(),
        3..=5 if n > 0 => w[place] = next_down(real_of(w[time_place(w, n - 1)])).to_bits(),
        6 => w[time_place(w, last)] = next_up(real_of(w[2])).to_bits(),
        _ => w[2] = UNSET,
    }
}
