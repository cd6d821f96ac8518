//! The ported files of `oce-blocks`, compiled unchanged from docs/src, over a stand-in for
//! `oce_model`. `lib_parts.rs` is cut out of the published `lib.rs` by build.rs. Ours are `kind`,
//! which names the blocks, and `access`, which builds them: their fields are visible here only.
#![forbid(unsafe_code)]
#![allow(dead_code)] // the published text has parts that nothing here calls

use std::borrow::Cow;

use oce_model::{ParamTable, Value, determinism::canonicalize_real};

/// Published files: their warnings are not ours to mend, and rustfmt does not follow a macro.
macro_rules! published {
    ($($file:item)*) => { $(#[allow(clippy::all)] $file)* };
}

published! {
    #[path = "../../../docs/src/crates/oce-blocks/src/dynamics.rs"]
    mod dynamics;
    #[path = "../../../docs/src/crates/oce-blocks/src/logical_timing.rs"]
    mod logical_timing;
    #[path = "../../../docs/src/crates/oce-blocks/src/logical_variable_pulse.rs"]
    mod logical_variable_pulse;
    #[path = "../../../docs/src/crates/oce-blocks/src/pid.rs"]
    mod pid;
    #[path = "../../../docs/src/crates/oce-blocks/src/reals_moving_average.rs"]
    mod reals_moving_average;
    #[path = "../../../docs/src/crates/oce-blocks/src/state_contract.rs"]
    mod state_contract;
    #[path = "../../../docs/src/crates/oce-blocks/src/state_contract_registry.rs"]
    mod state_contract_registry;
}

pub use logical_timing::{TimerAccumulating, TrueDelay, TrueFalseHold, TrueHoldWithReset};
pub use logical_variable_pulse::LogicalVariablePulse;
pub use pid::{Pid, PidWithReset};
pub use reals_moving_average::MovingAverage;

include!(concat!(env!("OUT_DIR"), "/lib_parts.rs"));

pub mod access;
pub mod kind;
