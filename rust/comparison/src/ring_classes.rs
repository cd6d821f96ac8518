//! What a call of a moving average meets: its window, its ring, and how near the tick comes to where a rule turns.
use crate::model::leaves::{UNSET, is_finite, real_of};
use crate::ring::Ring;
use crate::sides::{Side, side};
use crate::tally::{Word, met};

#[derive(Clone, Copy, Debug, PartialEq, Eq, PartialOrd, Ord)]
pub enum RingClass {
    Window(Size),
    /// Head and count reach past the last slot.
    Wrapped,
    /// As many points as slots.
    Full,
    /// A first tick on a ring that has points.
    FirstOnPoints,
    /// A time of the first points is a NaN.
    NanTime,
    /// A time of the first points is below the one before.
    Disordered,
    /// Where the window's start lies in the ring.
    WindowStart(Place),
    /// The second point against the window's start: at it and beyond it expires.
    Expires(Side),
    /// Pruning takes the head past the last slot.
    PrunedAround,
    /// Pruning leaves one point.
    OneLeft,
    /// The last point has the tick's time, bit by bit.
    EqualBits,
    /// The last point and the tick are at zeros of either sign.
    OtherZero,
    /// The time since the last point but one against two resolutions.
    Apart(Side),
    /// The tick takes the place of another time's point, with this coalesced word.
    Coalesced(Word),
    /// It does so for want of a slot alone.
    NoSlot,
    /// The tick against the end of the first window.
    Fills(Side),
    /// Refused for this alone.
    Damaged(Damage),
}

/// The sizes of a window, as the rules for its ring part them.
#[derive(Clone, Copy, Debug, PartialEq, Eq, PartialOrd, Ord)]
pub enum Size {
    /// Below 1e-5, but not below zero.
    Raised,
    /// Below zero.
    Negative,
    Below1024,
    At1024,
    /// Between 1024 and 65536, a whole number of seconds.
    Whole,
    /// Between 1024 and 65536, not whole.
    Fractional,
    At65536,
    Above65536,
}

/// A place in the ring, by its times.
#[derive(Clone, Copy, Debug, PartialEq, Eq, PartialOrd, Ord)]
pub enum Place {
    NoPoints,
    /// At or before the first point.
    First,
    Between,
    /// On a point past the first.
    OnPoint,
    /// Past all points.
    PastAll,
}

/// A head or a count outside the ring.
#[derive(Clone, Copy, Debug, PartialEq, Eq, PartialOrd, Ord)]
pub enum Damage {
    HeadAtCapacity,
    HeadAbove,
    CountNextToCapacity,
    CountAbove,
}

use RingClass::*;

/// All of them.
#[must_use]
pub fn all() -> Vec<RingClass> {
    let sizes = [
        Size::Raised,
        Size::Negative,
        Size::Below1024,
        Size::At1024,
        Size::Whole,
        Size::Fractional,
        Size::At65536,
        Size::Above65536,
    ];
    let places = [
        Place::NoPoints,
        Place::First,
        Place::Between,
        Place::OnPoint,
        Place::PastAll,
    ];
    let damages = [
        Damage::HeadAtCapacity,
        Damage::HeadAbove,
        Damage::CountNextToCapacity,
        Damage::CountAbove,
    ];
    let mut all = vec![Wrapped, Full, FirstOnPoints, NanTime, Disordered];
    all.extend([PrunedAround, OneLeft, EqualBits, OtherZero, NoSlot]);
    all.extend(sizes.map(Window));
    all.extend(places.map(WindowStart));
    all.extend(damages.map(Damaged));
    all.extend(Word::ALL.map(Coalesced));
    for side in Side::ALL {
        all.extend([Expires(side), Apart(side), Fills(side)]);
    }
    all
}

fn size(delta: f64) -> Size {
    match delta {
        ..0.0 => Size::Negative,
        ..1e-5 => Size::Raised,
        ..1024.0 => Size::Below1024,
        1024.0 => Size::At1024,
        65536.0 => Size::At65536,
        65536.0.. => Size::Above65536,
        _ if delta.fract() == 0.0 => Size::Whole,
        _ => Size::Fractional,
    }
}

/// The classes of an accepted update, by the words before and after it.
#[must_use]
pub fn accepted(s: &[u64], before: &[u64], after: &[u64]) -> Vec<RingClass> {
    let Some(ring) = Ring::of(s, before) else {
        return vec![];
    };
    let gone = (after[3] + ring.capacity() - ring.head()) % ring.capacity();
    let tick = Tick {
        ring,
        time: after[2],
        kept: ring.count() - gone,
        grew: after[4] + gone > ring.count(),
    };
    let mut classes = vec![Window(size(real_of(s[0]))), WindowStart(tick.place())];
    classes.extend(shape(&ring));
    classes.extend(tick.sides());
    classes.extend(tick.storing());
    let around = after[3] < ring.head();
    let one_left = gone > 0 && tick.kept == 1;
    classes.extend(met([(PrunedAround, around), (OneLeft, one_left)]));
    classes
}

/// The fault of a region that is refused for its head or its count alone.
#[must_use]
pub fn damage(s: &[u64], region: &[u64]) -> Option<RingClass> {
    let ring = Ring::of(s, region).filter(|_| region[2] == UNSET || is_finite(region[2]))?;
    let capacity = ring.capacity();
    let damage = match (ring.head(), ring.count()) {
        (head, count) if head >= capacity && count > capacity => return None,
        (head, _) if head == capacity => Damage::HeadAtCapacity,
        (head, _) if head > capacity => Damage::HeadAbove,
        (_, count) if count == capacity + 1 => Damage::CountNextToCapacity,
        (_, count) if count > capacity => Damage::CountAbove,
        _ => return None,
    };
    Some(Damaged(damage))
}

/// So many points are looked at for their order.
const LOOKED_AT: u64 = 32;

/// What a ring is like before the tick.
fn shape(ring: &Ring) -> impl Iterator<Item = RingClass> {
    let (head, count, capacity) = (ring.head(), ring.count(), ring.capacity());
    let looked_at = count.min(LOOKED_AT);
    let mut times = (0..looked_at).map(|n| ring.time(n));
    let mut pairs = (1..looked_at).map(|n| (ring.time(n - 1), ring.time(n)));
    met([
        (Wrapped, head + count > capacity),
        (Full, count == capacity),
        (FirstOnPoints, ring.previous().is_none() && count > 0),
        (NanTime, times.any(f64::is_nan)),
        (Disordered, pairs.any(|(a, b)| a > b)),
    ])
}

/// A tick that was stored: its time's word, the points that pruning kept, and whether it added one.
struct Tick<'a> {
    ring: Ring<'a>,
    time: u64,
    kept: u64,
    grew: bool,
}

impl Tick<'_> {
    fn t(&self) -> f64 {
        real_of(self.time)
    }

    fn place(&self) -> Place {
        let (ring, target) = (&self.ring, self.t() - self.ring.delta);
        match (0..ring.count()).find(|n| target <= ring.time(*n)) {
            None if ring.count() == 0 => Place::NoPoints,
            None => Place::PastAll,
            Some(0) => Place::First,
            Some(n) if target == ring.time(n) => Place::OnPoint,
            Some(_) => Place::Between,
        }
    }

    /// The time of the last point but one that is kept.
    fn last_but_one(&self) -> Option<f64> {
        (self.kept >= 2).then(|| self.ring.time(self.ring.count() - 2))
    }

    fn sides(&self) -> impl Iterator<Item = RingClass> {
        let (ring, t) = (&self.ring, self.t());
        let second = (ring.count() >= 2).then(|| ring.time(1));
        let expires = second.and_then(|second| side(t, second, |t| t - ring.delta));
        let two = 2.0 * ring.resolution();
        let apart = self.last_but_one();
        let apart = apart.and_then(|before| side(t, two, |t| t - before));
        let start = ring.previous().map(|_| ring.start());
        let fills = start.and_then(|start| side(t, start + ring.delta, |t| t));
        let sides = [expires.map(Expires), apart.map(Apart), fills.map(Fills)];
        sides.into_iter().flatten()
    }

    fn storing(&self) -> impl Iterator<Item = RingClass> {
        let ring = &self.ring;
        let last = (self.kept > 0).then(|| ring.time_word(ring.count() - 1));
        let equal_bits = last == Some(self.time);
        let equal = last.is_some_and(|word| real_of(word) == self.t());
        let coalesced = !self.grew && !equal_bits;
        let close = |before| self.t() - before < 2.0 * ring.resolution();
        let is_close = self.last_but_one().is_some_and(close);
        met([
            (EqualBits, equal_bits),
            (OtherZero, equal && !equal_bits),
            (Coalesced(Word::of(ring.coalesced())), coalesced),
            (NoSlot, coalesced && !is_close),
        ])
    }
}

#[cfg(test)]
mod tests {
    use super::*;
    use crate::inputs::{next_down, next_up};

    #[test]
    fn sizes_part_where_the_rules_do() {
        let parts = [1e-5, 1024.0, 65536.0].map(|x| [next_down(x), x, next_up(x)].map(size));
        let [least, small, large] = parts;
        assert_eq!(least, [Size::Raised, Size::Below1024, Size::Below1024]);
        assert_eq!(small, [Size::Below1024, Size::At1024, Size::Fractional]);
        assert_eq!(large, [Size::Fractional, Size::At65536, Size::Above65536]);
        assert_eq!([-0.0, -5e-324].map(size), [Size::Raised, Size::Negative]);
        assert_eq!(size(1025.0), Size::Whole);
    }
}
