//! Settings, ticks and regions from a generator with a fixed seed, made to reach the corners.
mod pulses;
mod reals;
mod regions;
mod rings;
mod rng;
mod rounding;
mod settings;
mod ticks;
pub mod wide;

pub(crate) use reals::MINUS_ZERO;
pub use reals::{NOT_FINITE, any_bool, any_real, next_down, next_up, tame, wild};
pub use regions::region;
pub use rng::Rng;
pub use rounding::{TWO_52, turning_word};
pub use settings::{accepted_settings, bench_controller, refuse_setting, settings};
pub use ticks::{tick, tick_inputs, tick_time, time_after};
