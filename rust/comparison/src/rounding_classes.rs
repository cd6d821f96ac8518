//! The words that a leaf rounds to a whole number, by where rounding turns, if it cuts bits and if it adds 2^52.
use crate::inputs::{TWO_52, next_down, next_up};
use crate::model::leaves::real_of;
use crate::tally::met;

/// A word by its sign bit.
#[derive(Clone, Copy, Debug, PartialEq, Eq, PartialOrd, Ord)]
pub enum RoundingClass {
    Positive(Size),
    Negative(Size),
}

/// The number without its sign. It may be of several sorts.
#[derive(Clone, Copy, Debug, PartialEq, Eq, PartialOrd, Ord)]
pub enum Size {
    Zero,
    Subnormal,
    /// Normal, and below a half.
    BelowHalf,
    Half,
    /// Between a half and 1.
    BelowOne,
    /// From 1 on, and below 2^52.
    Whole,
    /// From 1 on and below 2^51, a whole number of this parity and a half: with 2^52 added the middle of two floats.
    Tie(Parity),
    /// The same from 2^51 on, where every float is a half or whole.
    LargeTie(Parity),
    /// Below 2^51, the float next below a whole number from 1 on, or next above it.
    JustBelow,
    JustAbove,
    /// The float next below 2^52, and that itself.
    BelowTwo52,
    Two52,
    /// Between 2^52 and 2^53, and odd.
    OddBeyond,
    /// 2^53 or more.
    Two53,
    Infinite,
    Nan,
}

#[derive(Clone, Copy, Debug, PartialEq, Eq, PartialOrd, Ord)]
pub enum Parity {
    Even,
    Odd,
}

use Parity::*;
use RoundingClass::*;
use Size::*;

const SIZES: [Size; 18] = [
    Zero,
    Subnormal,
    BelowHalf,
    Half,
    BelowOne,
    Whole,
    Tie(Even),
    Tie(Odd),
    LargeTie(Even),
    LargeTie(Odd),
    JustBelow,
    JustAbove,
    BelowTwo52,
    Two52,
    OddBeyond,
    Two53,
    Infinite,
    Nan,
];

/// All of them.
#[must_use]
pub fn all() -> Vec<RoundingClass> {
    let both = |size| [Positive(size), Negative(size)];
    SIZES.into_iter().flat_map(both).collect()
}

/// The classes of a word.
pub fn of(word: u64) -> impl Iterator<Item = RoundingClass> {
    let signed = if word >> 63 == 0 { Positive } else { Negative };
    sizes(real_of(word).abs()).map(signed)
}

fn sizes(x: f64) -> impl Iterator<Item = Size> {
    const TWO_51: f64 = TWO_52 / 2.0;
    let is_odd = x.trunc() % 2.0 == 1.0;
    let parity = if is_odd { Odd } else { Even };
    let is_whole = |x: f64| x >= 1.0 && x.fract() == 0.0;
    let is_tie = x >= 1.0 && x.fract() == 0.5;
    let is_between = x < TWO_51 && x.fract() != 0.0;
    met([
        (Zero, x == 0.0),
        (Subnormal, x.is_subnormal()),
        (BelowHalf, x.is_normal() && x < 0.5),
        (Half, x == 0.5),
        (BelowOne, x > 0.5 && x < 1.0),
        (Whole, is_whole(x) && x < TWO_52),
        (Tie(parity), is_tie && x < TWO_51),
        (LargeTie(parity), is_tie && x >= TWO_51),
        (JustBelow, is_between && is_whole(next_up(x))),
        (JustAbove, is_between && is_whole(next_down(x))),
        (BelowTwo52, x == next_down(TWO_52)),
        (Two52, x == TWO_52),
        (OddBeyond, is_odd && x > TWO_52),
        (Two53, x.is_finite() && x >= 2.0 * TWO_52),
        (Infinite, x.is_infinite()),
        (Nan, x.is_nan()),
    ])
}
