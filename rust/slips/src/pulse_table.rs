//! The slips of document 02's request 3, the variable pulse, one at a time put into a copy of the model.
use crate::table::{Slip, slip};

const fn pulse_in(
    file: &'static str,
    name: &'static str,
    text: &'static str,
    slipped: &'static str,
) -> Slip {
    slip(name, "LogicalVariablePulse", file, text, slipped)
}

const fn pulse(name: &'static str, text: &'static str, slipped: &'static str) -> Slip {
    pulse_in("pulse.rs", name, text, slipped)
}

/// Where the model tells a change of width, a new cycle, what is sampled, the hold, and a cycle's rounding.
const CHANGED: &str = "absolute(real_of(w[0]) - u) > delta_u";
const ANEW: &str = "if first || changed {";
const SAMPLED: &str = "let sampled = if changed { u } else { real_of(w[0]) };";
const HOLD: &str = "let (y, timer) = hold(first, wanted, w[2] != 0, timer, least_hold);";
const TIMER: &str = "let timer = real_of(w[3]) + tick_dt(time, w[4]);";
const WHOLE: &str = "floor((time - origin) / period)";
const ABOVE_ZERO: &str = "floor((x * 1e6) + 0.5) / 1e6";
const BELOW_ZERO: &str = "ceil((x * 1e6) - 0.5) / 1e6";
const PERIOD: &str = "if real_of(s[0]) < least_period {";

/// All slips of the pulse.
pub const PULSE_SLIPS: [Slip; 50] = [
    // the width
    pulse(
        "a change of exactly delta_u is sampled",
        CHANGED,
        "absolute(real_of(w[0]) - u) >= delta_u",
    ),
    pulse(
        "a NaN changes the width",
        CHANGED,
        "!(absolute(real_of(w[0]) - u) <= delta_u)",
    ),
    pulse(
        "a rise alone changes the width",
        CHANGED,
        "u - real_of(w[0]) > delta_u",
    ),
    pulse("every input sampled", SAMPLED, "let sampled = u;"),
    pulse(
        "the first input sampled",
        SAMPLED,
        "let sampled = if first || changed { u } else { real_of(w[0]) };",
    ),
    pulse(
        "the first tick samples nothing",
        SAMPLED,
        "let sampled = if changed && !first { u } else { real_of(w[0]) };",
    ),
    pulse(
        "a sampled NaN stored as it is",
        "word_of(sampled)",
        "sampled.to_bits()",
    ),
    pulse(
        "an infinite input not sampled",
        SAMPLED,
        "let sampled = if changed && u - u == 0.0 { u } else { real_of(w[0]) };",
    ),
    pulse(
        "the share by the sampled input",
        "cycle(time, u, origin, period);",
        "cycle(time, if changed { u } else { real_of(w[0]) }, origin, period);",
    ),
    // the cycle's start
    pulse("the anchor kept on a change of width", ANEW, "if first {"),
    pulse(
        "the stored anchor taken on the first tick",
        ANEW,
        "if changed {",
    ),
    pulse(
        "the anchor moves on with the cycles",
        "            word_of(origin),\n",
        "            word_of(origin + floor((time - origin) / period).max(0.0) * period),\n",
    ),
    pulse(
        "an anchor that is not finite let through at a ratio of 1",
        "!is_finite(word_of(origin)) || ",
        "",
    ),
    // the ratio
    pulse(
        "+infinity taken for 1",
        "!is_finite(word_of(u)) || u <= 0.0",
        "u.is_nan() || u <= 0.0",
    ),
    pulse("a ratio of 1 cycles", "u >= 1.0", "u > 1.0"),
    pulse(
        "a ratio next to 1 is 1",
        "u >= 1.0",
        "u >= 1.0 - f64::EPSILON",
    ),
    // the cycle
    pulse(
        "the end belongs to the true part",
        "time < begin",
        "time <= begin",
    ),
    pulse(
        "the begin does not belong to it",
        "time >= begin",
        "time > begin",
    ),
    pulse("the begin not looked at", "time >= begin && ", ""),
    pulse(
        "the nearest whole period",
        WHOLE,
        "((time - origin) / period).round()",
    ),
    pulse(
        "periods cut toward zero",
        WHOLE,
        "((time - origin) / period).trunc()",
    ),
    pulse(
        "the true part of the first cycle alone",
        "time < begin + (u * period)",
        "time < origin + (u * period)",
    ),
    // six places
    pulse("six places cut", ABOVE_ZERO, "floor(x * 1e6) / 1e6"),
    pulse(
        "six places cut below zero",
        BELOW_ZERO,
        "ceil(x * 1e6) / 1e6",
    ),
    pulse("a half toward zero", ABOVE_ZERO, BELOW_ZERO),
    pulse("a half toward zero below it", BELOW_ZERO, ABOVE_ZERO),
    pulse(
        "divided by a million as times a millionth",
        ABOVE_ZERO,
        "floor((x * 1e6) + 0.5) * 1e-6",
    ),
    pulse(
        "not rounded",
        "origin + round_six(floor((time - origin) / period) * period)",
        "origin + floor((time - origin) / period) * period",
    ),
    pulse(
        "rounded with the anchor",
        "origin + round_six(floor((time - origin) / period) * period)",
        "round_six(origin + floor((time - origin) / period) * period)",
    ),
    // the period
    pulse(
        "a pulse's period not raised",
        PERIOD,
        "if real_of(s[0]) < 0.0 {",
    ),
    pulse(
        "the shorter of both periods",
        PERIOD,
        "if real_of(s[0]) > least_period {",
    ),
    pulse(
        "raised to twice the hold",
        "least_hold * 2.02",
        "least_hold * 2.0",
    ),
    // the hold
    pulse(
        "a pulse's timer forgets",
        TIMER,
        "let timer = tick_dt(time, w[4]);",
    ),
    pulse(
        "a pulse's timer of -0.0 made 0.0",
        TIMER,
        "let timer = real_of(w[3]) + tick_dt(time, w[4]) + 0.0;",
    ),
    pulse(
        "the first tick obeys the minimum hold",
        HOLD,
        "let (y, timer) = hold(false, wanted, w[2] != 0, timer, least_hold);",
    ),
    pulse(
        "a held word read as 1",
        HOLD,
        "let (y, timer) = hold(first, wanted, w[2] == 1, timer, least_hold);",
    ),
    pulse(
        "a pulse's flip keeps the timer",
        HOLD,
        "let (y, _) = hold(first, wanted, w[2] != 0, timer, least_hold);",
    ),
    pulse(
        "the timer starts again while cycle and output agree",
        HOLD,
        "let (y, timer) = hold(first, wanted, w[2] != 0, timer, least_hold);\n\
         let timer = if wanted == (w[2] != 0) { 0.0 } else { timer };",
    ),
    pulse(
        "the answer of the tick before",
        "boolean: y",
        "boolean: w[2] != 0",
    ),
    pulse(
        "the cycle's answer, not the held one",
        "boolean: y",
        "boolean: wanted",
    ),
    pulse("the cycle's output stored", "y.into()", "wanted.into()"),
    pulse_in(
        "timers.rs",
        "a flip only past the minimum hold",
        "timer >= need",
        "timer > need",
    ),
    // the limits
    pulse_in(
        "refusals.rs",
        "delta_u at its least refused",
        "(0.01..=0.5).contains(&real_of(s[1]))",
        "real_of(s[1]) > 0.01 && real_of(s[1]) <= 0.5",
    ),
    pulse_in(
        "refusals.rs",
        "delta_u at its most refused",
        "0.01..=0.5",
        "0.01..0.5",
    ),
    pulse_in(
        "refusals.rs",
        "a minimum hold of 1 refused",
        "real_of(s[2]) >= 1.0",
        "real_of(s[2]) > 1.0",
    ),
    pulse_in(
        "refusals.rs",
        "the published least of delta_u",
        "0.01..=0.5",
        "0.001..=0.5",
    ),
    pulse_in(
        "refusals.rs",
        "the published least of the minimum hold",
        "real_of(s[2]) >= 1.0",
        "real_of(s[2]) >= 1e-37",
    ),
    pulse_in(
        "refusals.rs",
        "a period of zero or less refused",
        "real_of(s[2]) >= 1.0",
        "real_of(s[2]) >= 1.0 && real_of(s[0]) > 0.0",
    ),
    pulse_in(
        "refusals.rs",
        "a setting outside its limits taken where it is finite",
        "kind == Kind::LogicalVariablePulse\n        &&",
        "false &&",
    ),
    // decoding
    pulse_in(
        "state.rs",
        "a pulse's timer decoded as its cycle start",
        "[real(w[0]), real(w[1]), flag(w[2]), real(w[3]), w[4], 0]",
        "[real(w[0]), real(w[3]), flag(w[2]), real(w[1]), w[4], 0]",
    ),
];
