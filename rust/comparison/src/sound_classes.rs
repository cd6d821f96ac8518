//! What decides whether a moving average's ring is sound (document 02, request 2): the one thing that is wrong with it and where it
//! stands, or what a sound ring has that could be taken for wrong.
use std::collections::BTreeSet;

use crate::inputs::MINUS_ZERO;
use crate::model::leaves::{is_finite, real_of};
use crate::ring::Ring;
use crate::tally::met;

#[derive(Clone, Copy, Debug, PartialEq, Eq, PartialOrd, Ord)]
pub enum SoundClass {
    /// One time alone is wrong, and this is its place.
    Wrong(Fault, At),
    /// The previous time alone is wrong: it is unset, and there are points.
    Unset(Points),
    /// No points and no previous time: sound.
    Fresh,
    /// Sound, with so many points and a previous time. The others below are of such rings.
    Sound(Points),
    /// The points run past the last slot.
    Turned,
    Neighbours(Equal),
    /// The last time and then the previous time.
    LastAndPrevious(Equal),
    LastBelowPrevious,
    /// The word in the first free slot would be wrong as a point's time.
    Stray(Fault),
}

/// What is wrong with a time.
#[derive(Clone, Copy, Debug, PartialEq, Eq, PartialOrd, Ord)]
pub enum Fault {
    Nan,
    PlusInfinity,
    MinusInfinity,
    /// It is below the one before.
    Falls,
    /// It is above the previous time.
    Above,
}

/// Where a point stands in the ring.
#[derive(Clone, Copy, Debug, PartialEq, Eq, PartialOrd, Ord)]
pub enum At {
    Only,
    First,
    Middle,
    Last,
    /// In the last slot, and the points go on in slot 0.
    BeforeTurn,
    /// In slot 0, and there are points before it.
    AfterTurn,
}

#[derive(Clone, Copy, Debug, PartialEq, Eq, PartialOrd, Ord)]
pub enum Points {
    None,
    One,
    Some,
    /// As many as slots.
    Full,
}

/// How two times are equal.
#[derive(Clone, Copy, Debug, PartialEq, Eq, PartialOrd, Ord)]
pub enum Equal {
    Bits,
    /// -0.0, then 0.0.
    MinusZeroFirst,
    /// 0.0, then -0.0.
    ZeroFirst,
}

use SoundClass::*;

const EQUAL: [Equal; 3] = [Equal::Bits, Equal::MinusZeroFirst, Equal::ZeroFirst];

/// All of them but those that cannot be: the first time has none before it, and behind a time above the previous one there is none
/// that is not wrong too.
#[must_use]
pub fn all() -> Vec<SoundClass> {
    let not_finite = [Fault::Nan, Fault::PlusInfinity, Fault::MinusInfinity];
    let of_turn = [At::BeforeTurn, At::AfterTurn];
    let mut all = vec![Fresh, Turned, LastBelowPrevious];
    for fault in not_finite {
        all.extend([At::Only, At::First, At::Middle, At::Last].map(|at| Wrong(fault, at)));
        all.extend(of_turn.map(|at| Wrong(fault, at)));
    }
    all.extend([At::Middle, At::Last].map(|at| Wrong(Fault::Falls, at)));
    all.extend(of_turn.map(|at| Wrong(Fault::Falls, at)));
    all.extend([At::Only, At::Last].map(|at| Wrong(Fault::Above, at)));
    all.extend([Points::One, Points::Some, Points::Full].map(Unset));
    all.extend([Points::None, Points::One, Points::Some, Points::Full].map(Sound));
    all.extend(EQUAL.map(Neighbours));
    all.extend(EQUAL.map(LastAndPrevious));
    all.extend(not_finite.map(Stray));
    all.extend([Fault::Falls, Fault::Above].map(Stray));
    all
}

/// The classes of a region that decodes; none if more than one thing is wrong.
#[must_use]
pub fn of(s: &[u64], region: &[u64]) -> Vec<SoundClass> {
    let Some(ring) = Ring::of(s, region) else {
        return vec![];
    };
    match (wrong(&ring).as_slice(), ring.previous(), points(&ring)) {
        ([], None, Points::None) => vec![Fresh],
        ([], None, points) => vec![Unset(points)],
        ([], Some(previous), _) => sound(&ring, previous),
        ([(n, fault)], Some(_), _) => places(&ring, *n).map(|at| Wrong(*fault, at)).collect(),
        _ => vec![],
    }
}

fn points(ring: &Ring) -> Points {
    match ring.count() {
        0 => Points::None,
        1 => Points::One,
        count if count == ring.capacity() => Points::Full,
        _ => Points::Some,
    }
}

/// What is wrong with a time behind this finite one, by a previous time.
fn fault(word: u64, before: f64, previous: f64) -> Option<Fault> {
    let t = real_of(word);
    if t.is_nan() {
        Some(Fault::Nan)
    } else if t == f64::INFINITY {
        Some(Fault::PlusInfinity)
    } else if t == f64::NEG_INFINITY {
        Some(Fault::MinusInfinity)
    } else if t < before {
        Some(Fault::Falls)
    } else {
        (t > previous).then_some(Fault::Above)
    }
}

/// The positions whose times are wrong. A time that is not finite is passed over by those behind it.
fn wrong(ring: &Ring) -> Vec<(u64, Fault)> {
    let previous = ring.previous().unwrap_or(f64::INFINITY);
    let (mut wrong, mut before) = (vec![], f64::NEG_INFINITY);
    for n in 0..ring.count() {
        let word = ring.time_word(n);
        wrong.extend(fault(word, before, previous).map(|fault| (n, fault)));
        if is_finite(word) {
            before = real_of(word);
        }
    }
    wrong
}

fn places(ring: &Ring, n: u64) -> impl Iterator<Item = At> {
    let (slot, count) = ((ring.head() + n) % ring.capacity(), ring.count());
    let (first, last, only) = (n == 0, n + 1 == count, count == 1);
    met([
        (At::Only, only),
        (At::First, first && !only),
        (At::Middle, !first && !last),
        (At::Last, last && !only),
        (At::BeforeTurn, slot + 1 == ring.capacity() && !last),
        (At::AfterTurn, slot == 0 && !first),
    ])
}

impl Equal {
    fn of(first: u64, second: u64) -> Option<Equal> {
        match (first, second) {
            (MINUS_ZERO, 0) => Some(Equal::MinusZeroFirst),
            (0, MINUS_ZERO) => Some(Equal::ZeroFirst),
            _ => (first == second).then_some(Equal::Bits),
        }
    }
}

/// What a sound ring with a previous time has.
fn sound(ring: &Ring, previous: f64) -> Vec<SoundClass> {
    let count = ring.count();
    let last = count.checked_sub(1).map(|n| ring.time_word(n));
    let pairs = (1..count).filter_map(|n| Equal::of(ring.time_word(n - 1), ring.time_word(n)));
    let pairs: BTreeSet<Equal> = pairs.collect();
    let at_previous = last.and_then(|last| Equal::of(last, previous.to_bits()));
    let before = last.map_or(f64::NEG_INFINITY, real_of);
    let free = (count < ring.capacity()).then(|| ring.time_word(count));
    let stray = free.and_then(|word| fault(word, before, previous));
    let mut classes = vec![Sound(points(ring))];
    classes.extend(pairs.into_iter().map(Neighbours));
    classes.extend(at_previous.map(LastAndPrevious));
    classes.extend(stray.map(Stray));
    classes.extend(met([
        (Turned, ring.head() + count > ring.capacity()),
        (LastBelowPrevious, count > 0 && before < previous),
    ]));
    classes
}

#[cfg(test)]
mod tests {
    use super::*;
    use crate::inputs::{Rng, wide};
    use crate::{Kind, model};

    const KIND: Kind = Kind::MovingAverage;

    /// The ring of two seconds has 2052 slots; these points end in slot 1.
    fn region(times: &[f64], previous: f64) -> Vec<u64> {
        let (count, capacity) = (times.len(), 2052);
        let mut region = vec![0; 6 + 2 * capacity];
        let head = (capacity + 2 - count) % capacity;
        (region[2], region[3], region[4]) = (previous.to_bits(), head as u64, count as u64);
        for (n, t) in times.iter().enumerate() {
            region[6 + (head + n) % capacity] = t.to_bits();
        }
        region
    }

    fn classes(times: &[f64], previous: f64) -> Vec<SoundClass> {
        of(&[2f64.to_bits()], &region(times, previous))
    }

    #[test]
    fn one_wrong_time_and_its_places() {
        let below = [1.0, 2.0, 1.5, 3.0];
        let due = [At::Middle, At::AfterTurn].map(|at| Wrong(Fault::Falls, at));
        assert_eq!(classes(&below, 3.0), due);
        let above = [1.0, 4.0];
        let due = [At::Last].map(|at| Wrong(Fault::Above, at));
        assert_eq!(classes(&above, 3.0), due);
        let infinite = [1.0, 2.0, f64::INFINITY, 3.0, 3.0];
        let due = [At::Middle, At::BeforeTurn].map(|at| Wrong(Fault::PlusInfinity, at));
        assert_eq!(classes(&infinite, 3.0), due);
        assert_eq!(classes(&[2.0, 1.0, f64::NAN], 3.0), []);
    }

    /// Whether the classes of a region are those of a sound ring.
    fn is_sound(classes: &[SoundClass]) -> bool {
        let sound = |class: &SoundClass| matches!(class, Fresh | Sound(_));
        classes.iter().any(sound)
    }

    #[test]
    fn a_ring_is_classed_as_sound_where_the_model_says_so() {
        let mut r = Rng::new(5, 0);
        let (mut sound, mut others) = (0, 0);
        for _ in 0..2000 {
            let s = wide::settings(&mut r, KIND);
            let region = wide::region(&mut r, KIND, &s);
            if model::refusal(KIND, &s, &region, None) == 0 {
                let due = model::sound(KIND, &s, &region);
                assert_eq!(is_sound(&of(&s, &region)), due);
                *(if due { &mut sound } else { &mut others }) += 1;
            }
        }
        assert!(sound > 100 && others > 100);
    }
}
