//! The proved library, linked. Nothing checks these declarations against crates/exports: the tests do.
pub mod bench_rows;
pub mod boundary;
mod calls;
pub mod guarded;
mod leaves;
pub mod shown;
pub mod shown_pulse;
pub mod shown_sheet;

pub use calls::{CALLS, OVEN_CALLS, SHEETS, answer, run};
pub use leaves::LEAVES;
