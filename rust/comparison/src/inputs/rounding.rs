//! Words at which rounding to a whole number turns.
use super::Rng;
use super::reals::{NANS, beside, next_down, next_up, zero};

/// From here on every float is whole.
pub const TWO_52: f64 = 4503599627370496.0;

/// A word of either sign.
pub fn turning_word(r: &mut Rng) -> u64 {
    size(r).to_bits() | zero(r)
}

/// The number without its sign.
fn size(r: &mut Rng) -> f64 {
    let (whole, bits) = (whole(r), r.word() >> 12);
    match r.below(16) {
        0 => 0.0,
        1 => f64::from_bits(bits), // subnormal
        2 => 0.5 * r.unit(),
        3 => beside(r, 0.5),
        4 => 1.0 - 0.5 * r.unit(),
        5 => whole,
        6 | 7 => whole + 0.5,
        8 => next_down(whole),
        9 => next_up(whole),
        10 | 11 => (TWO_52 + bits as f64) / 2.0,
        12 => beside(r, TWO_52),
        13 => TWO_52 + bits as f64,
        14 => f64::from_bits((2.0 * TWO_52).to_bits() + (r.below(971) << 52) + bits),
        _ if r.one_in(2) => f64::INFINITY,
        _ => f64::from_bits(r.pick(&NANS)),
    }
}

/// From 1 up to 2^51, as many of any length.
fn whole(r: &mut Rng) -> f64 {
    let places = r.below(51);
    (1 + (r.word() >> (13 + places))) as f64
}
