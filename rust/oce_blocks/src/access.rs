//! Builds a published block from its settings as words in source order: a real as its bits, a
//! boolean or the controller type as a number. And the leaves, for a comparison of their own.
use oce_model::SimpleController;

use crate::kind::Kind;
use crate::pid::ControllerConfig;
use crate::{
    Block, LogicalVariablePulse, MovingAverage, Pid, PidWithReset, TimerAccumulating, TrueDelay,
    TrueFalseHold, TrueHoldWithReset,
};

const TYPES: [SimpleController; 4] = [
    SimpleController::P,
    SimpleController::Pi,
    SimpleController::Pd,
    SimpleController::Pid,
];

fn controller(s: &[u64]) -> ControllerConfig {
    let real = |n: usize| f64::from_bits(s[n]);
    ControllerConfig {
        controller_type: TYPES[s[0] as usize],
        k: real(1),
        ti: real(2),
        td: real(3),
        r: real(4),
        y_max: real(5),
        y_min: real(6),
        ni: real(7),
        nd: real(8),
        xi_start: real(9),
        yd_start: real(10),
        y_reset: real(11),
        reverse_acting: s[12] != 0,
    }
}

#[must_use]
pub fn block(kind: Kind, s: &[u64]) -> Box<dyn Block> {
    let real = |n: usize| f64::from_bits(s[n]);
    match kind {
        Kind::Pid => Box::new(Pid {
            config: controller(s),
        }),
        Kind::PidWithReset => Box::new(PidWithReset {
            config: controller(s),
        }),
        Kind::MovingAverage => Box::new(MovingAverage { delta: real(0) }),
        Kind::TimerAccumulating => Box::new(TimerAccumulating { t: real(0) }),
        Kind::TrueDelay => Box::new(TrueDelay {
            delay_time: real(0),
            delay_on_init: s[1] != 0,
        }),
        Kind::TrueFalseHold => Box::new(TrueFalseHold {
            true_hold_duration: real(0),
            false_hold_duration: real(1),
        }),
        Kind::TrueHoldWithReset => Box::new(TrueHoldWithReset { duration: real(0) }),
        Kind::LogicalVariablePulse => Box::new(LogicalVariablePulse {
            period: real(0),
            delta_u: real(1),
            min_true_false_hold: real(2),
        }),
    }
}

/// The leaves of `dynamics.rs` and the two constants that document 01 restates.
pub mod leaves {
    pub const UNSET: u64 = crate::dynamics::PREV_T_UNSET;
    pub const MIN_PARAM: f64 = crate::pid::MIN_PARAM;

    #[must_use]
    pub fn tick_dt(t: f64, previous: u64) -> f64 {
        crate::dynamics::tick_dt(t, previous)
    }

    #[must_use]
    pub fn accumulate(x: f64, rate: f64, gap: f64) -> f64 {
        crate::dynamics::forward_euler_accumulate(x, rate, gap)
    }

    #[must_use]
    pub fn filter(x: f64, input: f64, time_const: f64, gap: f64) -> f64 {
        crate::dynamics::first_order_filter_implicit(x, input, time_const, gap)
    }
}
