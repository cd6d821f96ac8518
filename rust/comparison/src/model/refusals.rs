//! Document 01's table of refusal numbers, and the state length.
use super::average::Ring;
use super::leaves::{UNSET, is_finite, real_of};
use crate::Kind;

/// Number 2. For the pulse also a setting outside the limits of document 02, request 3.
#[must_use]
pub fn setting_fault(kind: Kind, s: &[u64]) -> bool {
    let mut reals = kind
        .settings()
        .bytes()
        .zip(s)
        .filter(|(item, _)| *item == b'r');
    if reals.any(|(_, w)| !is_finite(*w)) {
        return true;
    }
    kind == Kind::LogicalVariablePulse
        && !((0.01..=0.5).contains(&real_of(s[1])) && real_of(s[2]) >= 1.0)
}

#[must_use]
pub fn length(kind: Kind, s: &[u64]) -> usize {
    let ring = if kind == Kind::MovingAverage {
        2 * Ring::of(s).capacity as usize
    } else {
        0
    };
    kind.words(s).len() + ring
}

/// Number 6.
#[must_use]
pub fn region_fault(kind: Kind, s: &[u64], region: &[u64]) -> bool {
    let previous = kind.time_place(s).map_or(UNSET, |n| region[n]);
    if previous != UNSET && !is_finite(previous) {
        return true;
    }
    kind == Kind::MovingAverage && {
        let capacity = Ring::of(s).capacity;
        region[3] >= capacity || region[4] > capacity
    }
}

/// Number 7.
#[must_use]
pub fn time_fault(kind: Kind, s: &[u64], region: &[u64], time: u64) -> bool {
    let previous = kind.time_place(s).map_or(UNSET, |n| region[n]);
    previous != UNSET && real_of(time) < real_of(previous)
}

/// Tests 2 and 3.
pub(super) fn start_refusal(kind: Kind, s: &[u64], region: &[u64]) -> u64 {
    if setting_fault(kind, s) {
        2
    } else if region.len() != length(kind, s) {
        3
    } else {
        0
    }
}

/// Tests 2, 3 and 6 as sound and decoding do; with a time also 5 and 7, in the table's order.
#[must_use]
pub fn refusal(kind: Kind, s: &[u64], region: &[u64], time: Option<u64>) -> u64 {
    let before = start_refusal(kind, s, region);
    if before != 0 {
        before
    } else if time.is_some_and(|t| !is_finite(t)) {
        5
    } else if region_fault(kind, s, region) {
        6
    } else if time.is_some_and(|t| time_fault(kind, s, region, t)) {
        7
    } else {
        0
    }
}

/// Refusal 0 and the length, or refusal 2 and length 0.
#[must_use]
pub fn state_length(kind: Kind, s: &[u64]) -> (u64, usize) {
    if setting_fault(kind, s) {
        (2, 0)
    } else {
        (0, length(kind, s))
    }
}
