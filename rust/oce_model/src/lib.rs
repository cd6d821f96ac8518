//! Stand-in for the crate `oce_model`, of which no text is published here: only what the ported
//! files name. Every body rests on document 01, not on the original.

/// A signal value. The ported files use `Real` and `Boolean`, and `lib.rs` names `Integer`; what they
/// carry is read off those uses.
#[derive(Clone, Copy, Debug, PartialEq)]
pub enum Value {
    Real(f64),
    Integer(i64),
    Boolean(bool),
}

/// `init_state` takes one. None of the ported blocks reads it, and document 01 has no such thing.
#[derive(Default)]
pub struct ParamTable;

/// The controller types of document 01. `pid.rs` names `Pi`, `Pd` and `Pid`; the name `P` is ours.
#[derive(Clone, Copy, Debug, PartialEq, Eq)]
pub enum SimpleController {
    P,
    Pi,
    Pd,
    Pid,
}

pub mod determinism {
    /// Document 01: "every NaN becomes 7FF8000000000000".
    pub const CANONICAL_NAN_BITS: u64 = 0x7FF8_0000_0000_0000;

    /// Document 01: "canonical: every NaN becomes 7FF8000000000000, other bits stay".
    #[must_use]
    pub fn canonicalize_real(x: f64) -> f64 {
        if x.is_nan() {
            f64::from_bits(CANONICAL_NAN_BITS)
        } else {
            x
        }
    }

    /// Called once, as `det_max(x, 0.0)`, for a positive duration.
    /// Document 01: "positive duration: itself if above 0, else +0.0".
    #[must_use]
    pub fn det_max(x: f64, floor: f64) -> f64 {
        if x > floor { x } else { floor }
    }
}
