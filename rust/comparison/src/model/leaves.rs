//! Document 01's shared leaves.

/// The unset marker of a previous time.
pub const UNSET: u64 = u64::MAX;

/// The one NaN that is stored and handed out.
const CANONICAL: u64 = 0x7FF8_0000_0000_0000;

const SIGN: u64 = 1 << 63;

#[must_use]
pub fn real_of(word: u64) -> f64 {
    f64::from_bits(word)
}

/// A real as it is stored or handed out: canonical.
#[must_use]
pub fn word_of(x: f64) -> u64 {
    if x.is_nan() { CANONICAL } else { x.to_bits() }
}

/// Neither NaN nor infinite.
#[must_use]
pub fn is_finite(word: u64) -> bool {
    (word >> 52) & 0x7FF != 0x7FF
}

/// The tick gap.
#[must_use]
pub fn tick_dt(time: f64, previous: u64) -> f64 {
    if previous == UNSET {
        0.0
    } else {
        time - real_of(previous)
    }
}

#[must_use]
pub fn accumulate(x: f64, rate: f64, gap: f64) -> f64 {
    let step = rate * gap;
    x + step
}

/// The implicit filter.
#[must_use]
pub fn filter(x: f64, u: f64, constant: f64, gap: f64) -> f64 {
    let a = gap / constant;
    let above = x + (a * u);
    above / (1.0 + a)
}

#[must_use]
pub fn positive_duration(x: f64) -> f64 {
    if x > 0.0 { x } else { 0.0 }
}

#[must_use]
pub fn absolute(x: f64) -> f64 {
    real_of(x.to_bits() & !SIGN)
}

/// Rounding up, by cutting bits, where the code adds 2^52 and takes it away: NaN, infinities and wholes stay, a zero result keeps
/// the sign.
#[must_use]
pub fn ceil(x: f64) -> f64 {
    let w = x.to_bits();
    let negative = w & SIGN != 0;
    let exponent = ((w >> 52) & 0x7FF) as i64 - 1023;
    if exponent >= 52 || w & !SIGN == 0 {
        return x;
    }
    if exponent < 0 {
        return if negative { -0.0 } else { 1.0 };
    }
    let fraction = (1u64 << (52 - exponent)) - 1;
    let whole = real_of(w & !fraction);
    if w & fraction == 0 || negative {
        whole
    } else {
        whole + 1.0
    }
}

/// Rounding down is rounding up, turned over.
#[must_use]
pub fn floor(x: f64) -> f64 {
    let up = ceil(real_of(x.to_bits() ^ SIGN));
    real_of(up.to_bits() ^ SIGN)
}
