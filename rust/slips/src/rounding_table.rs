//! The slips of document 02's request 4: of rounding, one at a time put into a copy of it, and of what blocks round, put into
//! a copy of the model. A bound that lets 2^52 itself, infinities or NaN through is none: the sum and the comparisons leave
//! them as they are.
use crate::table::{Slip, slip};

const fn rounding(
    leaves: &'static str,
    name: &'static str,
    text: &'static str,
    slipped: &'static str,
) -> Slip {
    slip(name, leaves, "rounding.rs", text, slipped)
}

/// The leaves that must show a slip.
const BOTH: &str = "ceil and floor";
const UP: &str = "ceil";
const DOWN: &str = "floor";

/// The bound, the sum, and what becomes of a negative and of a positive number.
const BOUND: &str = "size < TWO_52";
const SUM: &str = "size + TWO_52 - TWO_52";
const UP_BELOW_ZERO: &str = "if size < near { -(near - 1.0) } else { -near }";
const UP_ABOVE_ZERO: &str = "if near < size { near + 1.0 } else { near }";
const DOWN_BELOW_ZERO: &str = "if near < size { -(near + 1.0) } else { -near }";
const DOWN_ABOVE_ZERO: &str = "if size < near { near - 1.0 } else { near }";

/// All slips of rounding.
pub const ROUNDING_SLIPS: [Slip; 25] = [
    // the bound
    rounding(BOTH, "the bound at 2^51", BOUND, "size < TWO_52 / 2.0"),
    rounding(BOTH, "the bound at 2^53", BOUND, "size < TWO_52 * 2.0"),
    rounding(
        BOTH,
        "the bound at the last whole number before it",
        BOUND,
        "size < TWO_52 - 1.0",
    ),
    rounding(
        UP,
        "the sign lost from the bound on",
        "        x\n    } else if x < 0.0 {\n        if size < near {",
        "        size\n    } else if x < 0.0 {\n        if size < near {",
    ),
    // the sum
    rounding(
        BOTH,
        "2^52 and 1 in the place of 2^52",
        "4503599627370496.0",
        "4503599627370497.0",
    ),
    rounding(
        BOTH,
        "2^51 added",
        SUM,
        "size + TWO_52 / 2.0 - TWO_52 / 2.0",
    ),
    rounding(
        BOTH,
        "one and a half of 2^52 added",
        SUM,
        "size + TWO_52 * 1.5 - TWO_52 * 1.5",
    ),
    rounding(
        BOTH,
        "added and taken away at once",
        SUM,
        "size + (TWO_52 - TWO_52)",
    ),
    rounding(
        BOTH,
        "added to a negative number",
        SUM,
        "(x + TWO_52 - TWO_52).abs()",
    ),
    // up
    rounding(UP, "stays below by one", UP_ABOVE_ZERO, "near"),
    rounding(
        UP,
        "a negative number stays below by one",
        UP_BELOW_ZERO,
        "-near",
    ),
    rounding(
        UP,
        "a whole number made one more",
        UP_ABOVE_ZERO,
        "if near <= size { near + 1.0 } else { near }",
    ),
    rounding(UP, "up toward zero", UP_ABOVE_ZERO, DOWN_ABOVE_ZERO),
    rounding(
        UP,
        "a half more than the number below",
        UP_ABOVE_ZERO,
        "if near < size { near + 0.5 } else { near }",
    ),
    rounding(
        UP,
        "a tie left where the sum puts it",
        UP_ABOVE_ZERO,
        "if near < size && size - near != 0.5 { near + 1.0 } else { near }",
    ),
    rounding(
        UP,
        "the sign not turned back",
        UP_BELOW_ZERO,
        DOWN_ABOVE_ZERO,
    ),
    rounding(
        UP,
        "a zero above the nearest number without its sign",
        UP_BELOW_ZERO,
        "if size < near { 1.0 - near } else { -near }",
    ),
    rounding(
        UP,
        "a zero that is the nearest number without its sign",
        UP_BELOW_ZERO,
        "if size < near { -(near - 1.0) } else { 0.0 - near }",
    ),
    rounding(
        UP,
        "-0.0 taken for a positive number",
        "0.0 < x {\n        if near < size {",
        "0.0 <= x {\n        if near < size {",
    ),
    // down
    rounding(
        DOWN,
        "0.0 taken for a negative number",
        "x < 0.0 {\n        if near < size {",
        "x <= 0.0 {\n        if near < size {",
    ),
    rounding(DOWN, "stays above by one", DOWN_ABOVE_ZERO, "near"),
    rounding(
        DOWN,
        "a negative number stays above by one",
        DOWN_BELOW_ZERO,
        "-near",
    ),
    rounding(
        DOWN,
        "a negative whole number made one less",
        DOWN_BELOW_ZERO,
        "if near <= size { -(near + 1.0) } else { -near }",
    ),
    rounding(DOWN, "down toward zero", DOWN_BELOW_ZERO, UP_BELOW_ZERO),
    rounding(
        DOWN,
        "a zero below the nearest number with a sign",
        DOWN_ABOVE_ZERO,
        "if size < near { -(1.0 - near) } else { near }",
    ),
];

const fn window(name: &'static str, slipped: &'static str) -> Slip {
    slip(
        name,
        "MovingAverage",
        "average.rs",
        "2.0 * ceil(delta)",
        slipped,
    )
}

const fn pulse(name: &'static str, text: &'static str, slipped: &'static str) -> Slip {
    slip(name, "LogicalVariablePulse", "leaves.rs", text, slipped)
}

/// The slips of what blocks round.
pub const USE_SLIPS: [Slip; 6] = [
    window("a window cut to whole seconds", "2.0 * delta.trunc()"),
    window(
        "a window of the nearest whole seconds",
        "2.0 * delta.round()",
    ),
    window(
        "a window of whole seconds made one longer",
        "2.0 * (delta.floor() + 1.0)",
    ),
    window("twice the window rounded up", "ceil(2.0 * delta)"),
    pulse(
        "whole periods before the anchor made one more",
        "if w & fraction == 0 || negative {",
        "if negative {",
    ),
    pulse(
        "millionths from 2^50 on left with their fraction",
        "exponent >= 52",
        "exponent >= 50",
    ),
];
