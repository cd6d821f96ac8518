//! The blocks by name, with what their settings, inputs, outputs and state words stand for.
//! Ours, from document 01 (the eighth block from request 3 of document 02).

/// One of the blocks, numbered in the order of document 01's list, the pulse last.
#[derive(Clone, Copy, Debug, PartialEq, Eq, PartialOrd, Ord)]
pub enum Kind {
    Pid,
    PidWithReset,
    MovingAverage,
    TimerAccumulating,
    TrueDelay,
    TrueFalseHold,
    TrueHoldWithReset,
    LogicalVariablePulse,
}

use Kind::*;

impl Kind {
    pub const ALL: [Kind; 8] = [
        Pid,
        PidWithReset,
        MovingAverage,
        TimerAccumulating,
        TrueDelay,
        TrueFalseHold,
        TrueHoldWithReset,
        LogicalVariablePulse,
    ];

    /// The name, as the program `soak` reads and writes it.
    #[must_use]
    pub fn name(self) -> String {
        format!("{self:?}")
    }

    #[must_use]
    pub fn named(name: &str) -> Option<Kind> {
        Kind::ALL.into_iter().find(|kind| kind.name() == name)
    }

    #[must_use]
    pub fn is_controller(self) -> bool {
        matches!(self, Pid | PidWithReset)
    }

    /// Each setting in source order: c controller type (0 to 3), r real, b boolean.
    #[must_use]
    pub fn settings(self) -> &'static str {
        match self {
            Pid | PidWithReset => "crrrrrrrrrrrb",
            MovingAverage | TimerAccumulating | TrueHoldWithReset => "r",
            TrueDelay => "rb",
            TrueFalseHold => "rr",
            LogicalVariablePulse => "rrr",
        }
    }

    /// Each input: r real, b boolean.
    #[must_use]
    pub fn inputs(self) -> &'static str {
        match self {
            Pid => "rr",
            PidWithReset => "rrb",
            MovingAverage | LogicalVariablePulse => "r",
            TimerAccumulating | TrueHoldWithReset => "bb",
            TrueDelay | TrueFalseHold => "b",
        }
    }

    /// Each output: r real, b boolean.
    #[must_use]
    pub fn outputs(self) -> &'static str {
        match self {
            Pid | PidWithReset | MovingAverage => "r",
            TimerAccumulating => "rb",
            TrueDelay | TrueFalseHold | TrueHoldWithReset | LogicalVariablePulse => "b",
        }
    }

    /// Each state word: r real, t previous time, b boolean, n number. A moving average's ring
    /// follows these, and all its words are real.
    #[must_use]
    pub fn words(self, settings: &[u64]) -> &'static str {
        match (self, settings[0]) {
            (Pid | PidWithReset, 0) => "",
            (Pid, 1) => "rt",
            (PidWithReset, 1) => "rtb",
            (Pid | PidWithReset, 2) => "tr",
            (Pid, _) => "rtr",
            (PidWithReset, _) => "rtrb",
            (MovingAverage, _) => "rrtnnn",
            (TimerAccumulating, _) => "rtbbb",
            (TrueDelay, _) => "rtbb",
            (TrueFalseHold | TrueHoldWithReset, _) => "brt",
            (LogicalVariablePulse, _) => "rrbrt",
        }
    }

    /// The place of the previous time, if the block keeps one.
    #[must_use]
    pub fn time_place(self, settings: &[u64]) -> Option<usize> {
        self.words(settings).find('t')
    }
}
