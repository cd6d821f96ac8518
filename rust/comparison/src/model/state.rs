//! A region taken apart into the state record of document 01, and whether it is sound.
use super::average::Ring;
use super::leaves::{real_of, word_of};
use super::{controller, refusal};
use crate::{Decoded, Kind};

/// Sound is yes exactly when decoding is not refused; of a moving average the ring must be sound too.
#[must_use]
pub fn sound(kind: Kind, s: &[u64], region: &[u64]) -> bool {
    refusal(kind, s, region, None) == 0
        && (kind != Kind::MovingAverage || Ring::of(s).is_sound(region))
}

/// The words of the state record, or the refusal and the record of zeros.
#[must_use]
pub fn decode(kind: Kind, s: &[u64], region: &[u64]) -> Decoded {
    let refusal = refusal(kind, s, region, None);
    let words = if refusal == 0 {
        words(kind, s, region)
    } else {
        [0; 6]
    };
    Decoded { refusal, words }
}

/// A real as its canonical word.
pub(super) fn real(word: u64) -> u64 {
    word_of(real_of(word))
}

/// A boolean as 0 or 1: any nonzero word is true.
pub(super) fn flag(word: u64) -> u64 {
    u64::from(word != 0)
}

/// In the order of document 01's state words; a controller has a place for each that any type has.
fn words(kind: Kind, s: &[u64], w: &[u64]) -> [u64; 6] {
    match kind {
        Kind::Pid | Kind::PidWithReset => controller::state(kind, s, w),
        Kind::MovingAverage => [real(w[0]), real(w[1]), w[2], w[3], w[4], flag(w[5])],
        Kind::TimerAccumulating => [real(w[0]), w[1], flag(w[2]), flag(w[3]), flag(w[4]), 0],
        Kind::TrueDelay => [real(w[0]), w[1], flag(w[2]), flag(w[3]), 0, 0],
        Kind::TrueFalseHold | Kind::TrueHoldWithReset => [flag(w[0]), real(w[1]), w[2], 0, 0, 0],
        Kind::LogicalVariablePulse => [real(w[0]), real(w[1]), flag(w[2]), real(w[3]), w[4], 0],
    }
}
