//! Rounding to a whole number in the way of document 02's request 4, by comparisons and 2^52, for slips to be put in.
use comparison::leaves::{Leaves, MODEL};
use comparison::model::leaves::{real_of, word_of};

const TWO_52: f64 = 4503599627370496.0;

/// Below 2^52 there are fractions. A NaN is not below it.
fn may_move(size: f64) -> bool {
    size < TWO_52
}

/// x without its sign, and below 2^52 a whole number next to that: the sum has no place for a fraction.
fn size_and_near(x: f64) -> (f64, f64) {
    let size = if x < 0.0 { -x } else { x };
    (size, size + TWO_52 - TWO_52)
}

fn ceil(x: f64) -> f64 {
    let (size, near) = size_and_near(x);
    if !may_move(size) {
        x
    } else if x < 0.0 {
        if size < near { -(near - 1.0) } else { -near }
    } else if 0.0 < x {
        if near < size { near + 1.0 } else { near }
    } else {
        x
    }
}

fn floor(x: f64) -> f64 {
    let (size, near) = size_and_near(x);
    if !may_move(size) {
        x
    } else if x < 0.0 {
        if near < size { -(near + 1.0) } else { -near }
    } else if 0.0 < x {
        if size < near { near - 1.0 } else { near }
    } else {
        x
    }
}

/// The model's leaves, with this rounding.
pub const LEAVES: Leaves = Leaves {
    ceil: |w| word_of(ceil(real_of(w[0]))),
    floor: |w| word_of(floor(real_of(w[0]))),
    ..MODEL
};
