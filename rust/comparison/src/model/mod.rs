//! Document 01, rule by rule, on words, and of document 02 what has come: rows that feed rows, sound
//! rings, the pulse. Written from the documents; it shares no code with the ported Rust.
mod average;
pub mod controller;
pub mod leaves;
mod pulse;
pub mod refusals;
pub mod sheet;
mod state;
mod timers;

use crate::{Answer, Calls, Kind, TickWords};
use leaves::{UNSET, real_of, word_of};
use timers::Step;

pub use refusals::{refusal, state_length};
pub use state::{decode, sound};

/// The model's calls, to be compared with the Rust.
pub const CALLS: Calls = Calls {
    state_length,
    start,
    emit,
    update,
    tick,
    run,
    sound,
    decode,
};

/// Previous time unset, integrator at xi_start, passed is t <= 0, the rest zero.
pub fn start(kind: Kind, s: &[u64], region: &mut [u64]) -> u64 {
    let refused = refusals::start_refusal(kind, s, region);
    if refused != 0 {
        return refused;
    }
    region.fill(0);
    if let Some(n) = kind.time_place(s) {
        region[n] = UNSET;
    }
    if kind.is_controller() {
        controller::start(kind, s, region);
    }
    if kind == Kind::TimerAccumulating {
        region[4] = u64::from(real_of(s[0]) <= 0.0);
    }
    0
}

/// What a timer or the pulse answers, and the words that it stores.
fn step(kind: Kind, s: &[u64], time: f64, inputs: &[u64], w: &[u64]) -> Step {
    match kind {
        Kind::TimerAccumulating => timers::timer_accumulating(s, time, inputs, w),
        Kind::TrueDelay => timers::true_delay(s, time, inputs, w),
        Kind::TrueFalseHold => timers::true_false_hold(s, time, inputs, w),
        Kind::TrueHoldWithReset => timers::true_hold_with_reset(s, time, inputs, w),
        Kind::LogicalVariablePulse => pulse::variable_pulse(s, time, inputs, w),
        Kind::Pid | Kind::PidWithReset | Kind::MovingAverage => unreachable!("no timer"),
    }
}

pub fn emit(kind: Kind, s: &[u64], time: u64, inputs: &[u64], region: &[u64]) -> Answer {
    let refused = refusal(kind, s, region, Some(time));
    if refused != 0 {
        return Answer::refused(refused);
    }
    let mut answer = Answer::default();
    match kind {
        Kind::Pid | Kind::PidWithReset => {
            answer.real = word_of(controller::output(kind, s, inputs, region));
        }
        Kind::MovingAverage => {
            answer.real = word_of(average::output(
                s,
                real_of(time),
                real_of(inputs[0]),
                region,
            ));
        }
        _ => {
            let step = step(kind, s, real_of(time), inputs, region);
            (answer.real, answer.boolean) = (word_of(step.real), step.boolean);
        }
    }
    answer
}

pub fn update(kind: Kind, s: &[u64], time: u64, inputs: &[u64], region: &mut [u64]) -> Answer {
    let refused = refusal(kind, s, region, Some(time));
    if refused != 0 {
        return Answer::refused(refused);
    }
    let t = real_of(time);
    let mut answer = Answer::default();
    match kind {
        Kind::Pid | Kind::PidWithReset => controller::update(kind, s, t, inputs, region),
        Kind::MovingAverage => answer.warning = average::update(s, t, real_of(inputs[0]), region),
        _ => {
            let next = step(kind, s, t, inputs, region).next;
            let length = region.len();
            region.copy_from_slice(&next[..length]);
        }
    }
    answer
}

/// A whole tick: an emit, then an update.
pub fn tick(kind: Kind, s: &[u64], time: u64, inputs: &[u64], region: &mut [u64]) -> Answer {
    let emitted = emit(kind, s, time, inputs, region);
    let warning = update(kind, s, time, inputs, region).warning;
    Answer { warning, ..emitted }
}

/// Whole ticks in their order: one that is refused changes nothing, and the next goes on. Settings and a length that are refused
/// refuse the run.
pub fn run(
    kind: Kind,
    s: &[u64],
    ticks: &[TickWords],
    region: &mut [u64],
) -> Result<Vec<Answer>, u64> {
    let number = refusals::start_refusal(kind, s, region);
    if number != 0 {
        return Err(number);
    }
    let ticks = ticks.iter();
    Ok(ticks
        .map(|[time, inputs @ ..]| tick(kind, s, *time, inputs, region))
        .collect())
}
