//! The slips of document 02's request 2, one at a time put into a copy of the model: rings that are called sound or not against the
//! rule, and calls that refuse a ring because it is not sound.
use crate::table::{Slip, slip};

const fn of_ring(name: &'static str, text: &'static str, slipped: &'static str) -> Slip {
    slip(name, "MovingAverage", "average.rs", text, slipped)
}

/// Where the model takes the times of the points, and where it compares them.
const TIMES: &str = "(0..count).map(|n| self.time(region, n))";
const FINITE: &str = "times.iter().all(|t| is_finite(*t))";
const RISES: &str = "!below(pair[1], pair[0])";
const PAIRS: &str = "times.windows(2).all(|pair| !below(pair[1], pair[0]))";
const BOUNDED: &str = "times.iter().all(|t| !below(previous, *t))";
const UNSET: &str = "(count == 0 || previous != UNSET)";

/// The slips of sound. They are put in the place of sound alone.
pub const SOUND_SLIPS: [Slip; 25] = [
    // which points are looked at
    slip(
        "any points are sound",
        "MovingAverage",
        "state.rs",
        "Ring::of(s).is_sound(region)",
        "true",
    ),
    of_ring(
        "the last point not looked at",
        TIMES,
        "(0..count.saturating_sub(1)).map(|n| self.time(region, n))",
    ),
    of_ring(
        "the first point not looked at",
        TIMES,
        "(1..count).map(|n| self.time(region, n))",
    ),
    of_ring(
        "the points after the turn not looked at",
        TIMES,
        "(0..count.min(self.capacity - region[3])).map(|n| self.time(region, n))",
    ),
    of_ring(
        "the points before the turn not looked at",
        TIMES,
        "(0..count).filter(|n| region[3] + n >= self.capacity).map(|n| self.time(region, n))",
    ),
    of_ring(
        "the points of a full ring not looked at",
        TIMES,
        "(0..count % self.capacity).map(|n| self.time(region, n))",
    ),
    of_ring(
        "the first free slot looked at",
        TIMES,
        "(0..self.capacity.min(count + 1)).map(|n| self.time(region, n))",
    ),
    of_ring(
        "all slots looked at",
        TIMES,
        "(0..self.capacity).map(|n| self.time(region, n))",
    ),
    of_ring(
        "slots taken for positions",
        TIMES,
        "(0..count).map(|n| region[6 + n as usize])",
    ),
    of_ring(
        "integrals taken for times",
        TIMES,
        "(0..count).map(|n| word_of(self.point(region, n).1))",
    ),
    // times that are not finite
    of_ring(
        "a NaN time taken",
        FINITE,
        "times.iter().all(|t| is_finite(*t) || real_of(*t).is_nan())",
    ),
    of_ring(
        "-infinity taken",
        FINITE,
        "times.iter().all(|t| is_finite(*t) || real_of(*t) == f64::NEG_INFINITY)",
    ),
    of_ring(
        "+infinity passed over",
        TIMES,
        "(0..count).map(|n| self.time(region, n)).filter(|t| real_of(*t) != f64::INFINITY)",
    ),
    // neighbours
    of_ring(
        "equal neighbours not sound",
        RISES,
        "below(pair[0], pair[1])",
    ),
    of_ring("neighbours compared as words", RISES, "pair[0] <= pair[1]"),
    of_ring(
        "neighbours compared as signed words",
        RISES,
        "pair[0] as i64 <= pair[1] as i64",
    ),
    of_ring(
        "-0.0 below 0.0 in a ring",
        RISES,
        "real_of(pair[0]).total_cmp(&real_of(pair[1])).is_le()",
    ),
    of_ring("neighbours not compared", PAIRS, "true"),
    of_ring(
        "the pair across the turn not compared",
        PAIRS,
        "times.windows(2).zip(1..).all(|(pair, n)| self.time_place(region, n) == 6 || !below(pair[1], pair[0]))",
    ),
    of_ring(
        "every other pair compared",
        PAIRS,
        "times.chunks_exact(2).all(|pair| !below(pair[1], pair[0]))",
    ),
    // the previous time
    of_ring("the previous time not compared", BOUNDED, "true"),
    of_ring(
        "a point at the previous time not sound",
        BOUNDED,
        "times.iter().all(|t| below(*t, previous))",
    ),
    of_ring(
        "-0.0 below 0.0 in the previous time",
        BOUNDED,
        "times.iter().all(|t| real_of(*t).total_cmp(&real_of(previous)).is_le())",
    ),
    of_ring("points before the first tick taken", UNSET, "true"),
    of_ring("a fresh start is not sound", UNSET, "previous != UNSET"),
];

/// The slips of the refusals, which the request leaves as they are.
pub const REFUSING_SLIPS: [Slip; 4] = [
    slip(
        "an unsound ring refused with 6",
        "MovingAverage",
        "refusals.rs",
        "region[3] >= capacity || region[4] > capacity",
        "region[3] >= capacity || region[4] > capacity || !Ring::of(s).is_sound(region)",
    ),
    slip(
        "an unsound ring refused by an emit",
        "MovingAverage",
        "mod.rs",
        "    let mut answer = Answer::default();\n    match kind {\n        Kind::Pid | Kind::PidWithReset => {\n",
        "    if !sound(kind, s, region) {\n        return Answer::refused(6);\n    }\n    let mut answer = Answer::default();\n    match kind {\n        Kind::Pid | Kind::PidWithReset => {\n",
    ),
    slip(
        "an unsound ring refused by an update",
        "MovingAverage",
        "mod.rs",
        "    let t = real_of(time);\n",
        "    if !sound(kind, s, region) {\n        return Answer::refused(6);\n    }\n    let t = real_of(time);\n",
    ),
    slip(
        "an unsound ring not taken apart",
        "MovingAverage",
        "state.rs",
        "    let refusal = refusal(kind, s, region, None);\n",
        "    let refusal = match refusal(kind, s, region, None) {\n        0 if !sound(kind, s, region) => 6,\n        number => number,\n    };\n",
    ),
];
