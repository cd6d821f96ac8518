//! Reals and booleans of every sort, as words.
use super::Rng;

/// Numbers at which a rule turns, or a rounding is lost.
const CORNERS: [f64; 42] = [
    0.0,
    -0.0,
    1.0,
    -1.0,
    5e-324,
    -5e-324,
    f64::MIN_POSITIVE,
    2.225073858507201e-308,
    f64::MAX,
    f64::MIN,
    1e-15,
    9.999999999999999e-16,
    1e-13,
    1.0000000000000002e-13,
    1e-5,
    9.999999999999999e-6,
    1e-3,
    0.01,
    0.1,
    0.3,
    0.5,
    0.9,
    2.0,
    -2.0,
    3.0,
    10.0,
    60.0,
    1023.5,
    1024.0,
    1024.0000000000002,
    1025.0,
    65536.0,
    2251799813685248.5,
    4503599627370496.0,
    9007199254740992.0,
    1e16,
    -1e16,
    1e154,
    1e-300,
    1e300,
    -1e300,
    -0.5,
];

/// Quiet and signalling, of both signs, with and without other bits.
pub(super) const NANS: [u64; 6] = [
    0x7FF8_0000_0000_0000,
    0xFFF8_0000_0000_0000,
    0x7FF0_0000_0000_0001,
    0xFFF0_0000_0000_0001,
    0x7FFF_FFFF_FFFF_FFFF,
    0x7FF4_0000_0000_1234,
];

/// A tame number: quarters, tenths, in the unit interval, or a small whole.
pub fn tame(r: &mut Rng) -> f64 {
    match r.below(4) {
        0 => (r.below(65) as f64 - 32.0) * 0.25,
        1 => (r.below(201) as f64 - 100.0) / 10.0,
        2 => r.unit(),
        _ => r.below(8) as f64,
    }
}

/// A finite number of any size: a corner, a neighbour of one, or any bits.
pub fn wild(r: &mut Rng) -> f64 {
    let corner = r.pick(&CORNERS);
    let x = match r.below(3) {
        0 => corner,
        1 => f64::from_bits(corner.to_bits().wrapping_add(r.below(5)).wrapping_sub(2)),
        _ => f64::from_bits(r.word()),
    };
    if x.is_finite() { x } else { corner }
}

/// Words of reals that are not finite: both infinities, and NaNs of three patterns.
pub const NOT_FINITE: [u64; 5] = [
    0x7FF0_0000_0000_0000,
    0xFFF0_0000_0000_0000,
    0x7FF8_0000_0000_0000,
    0xFFFF_FFFF_FFFF_FFFE,
    0x7FF0_0000_0000_0001,
];

/// The float next above x, which is not infinite.
#[must_use]
pub fn next_up(x: f64) -> f64 {
    let bits = (x + 0.0).to_bits(); // there is one zero
    f64::from_bits(if x < 0.0 {
        bits - 1
    } else {
        bits.wrapping_add(1)
    })
}

#[must_use]
pub fn next_down(x: f64) -> f64 {
    -next_up(-x)
}

/// The number itself, or one of the floats beside it.
pub(super) fn beside(r: &mut Rng, x: f64) -> f64 {
    r.pick(&[x, x, next_up(x), next_down(x)])
}

pub(crate) const MINUS_ZERO: u64 = 1 << 63;

pub(super) fn zero(r: &mut Rng) -> u64 {
    r.pick(&[0, MINUS_ZERO])
}

pub(super) fn infinity(r: &mut Rng) -> u64 {
    f64::INFINITY.to_bits() | zero(r)
}

/// Any word as a real: tame, wild, infinite, one of the NaNs, or a zero of either sign.
pub fn any_real(r: &mut Rng) -> u64 {
    match r.below(32) {
        0 => r.pick(&NANS),
        1 => infinity(r),
        2..=8 => wild(r).to_bits(),
        9 => r.word(),
        10..=13 => zero(r),
        _ => tame(r).to_bits(),
    }
}

/// Any word as a boolean: 0, 1, the highest bit alone, or any bits.
pub fn any_bool(r: &mut Rng) -> u64 {
    match r.below(8) {
        0 => r.word(),
        1 => 1 << 63,
        n => n & 1,
    }
}

#[cfg(test)]
mod tests {
    use super::*;

    #[test]
    fn floats_beside() {
        for zero in [0.0, -0.0] {
            assert_eq!([next_down(zero), next_up(zero)], [-5e-324, 5e-324]);
        }
        assert_eq!(next_up(-5e-324), 0.0);
        assert_eq!(next_up(1.0), 1.0 + f64::EPSILON);
        assert_eq!(next_down(-1.0), -1.0 - f64::EPSILON);
        assert_eq!(next_down(1.0), 1.0 - f64::EPSILON / 2.0);
        assert_eq!(next_up(f64::MAX), f64::INFINITY);
    }
}
