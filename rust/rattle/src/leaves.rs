//! The leaves.
use comparison::leaves::Leaves;

unsafe extern "C" {
    safe fn oven_canonical(w: u64) -> u64;
    safe fn oven_tick_dt(time: u64, previous: u64) -> u64;
    safe fn oven_accumulate(x: u64, slope: u64, dt: u64) -> u64;
    safe fn oven_filter(x: u64, input: u64, time_const: u64, dt: u64) -> u64;
    safe fn oven_positive_duration(x: u64) -> u64;
    safe fn oven_absolute(x: u64) -> u64;
    safe fn oven_ceil(x: u64) -> u64;
    safe fn oven_floor(x: u64) -> u64;
}

/// The proved leaves.
pub const LEAVES: Leaves = Leaves {
    canonical: |w| oven_canonical(w[0]),
    tick_dt: |w| oven_tick_dt(w[0], w[1]),
    accumulate: |w| oven_accumulate(w[0], w[1], w[2]),
    filter: |w| oven_filter(w[0], w[1], w[2], w[3]),
    positive_duration: |w| oven_positive_duration(w[0]),
    absolute: |w| oven_absolute(w[0]),
    ceil: |w| oven_ceil(w[0]),
    floor: |w| oven_floor(w[0]),
};
