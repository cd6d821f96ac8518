//! Document 01's four timers, on their words `w`.
use super::leaves::{UNSET, positive_duration, real_of, tick_dt, word_of};

/// What an emit answers, and the words that an update stores (as many as the block has).
pub(super) struct Step {
    pub real: f64,
    pub boolean: bool,
    pub next: [u64; 5],
}

/// Words: total, previous time, previous input, previous reset, passed.
pub(super) fn timer_accumulating(s: &[u64], time: f64, inputs: &[u64], w: &[u64]) -> Step {
    let (u, reset) = (inputs[0] != 0, inputs[1] != 0);
    let (t, total) = (real_of(s[0]), real_of(w[0]));
    let wipes = reset && w[3] == 0;
    let both = u && w[2] != 0 && w[1] != UNSET;
    let y = if wipes {
        0.0
    } else if both {
        total + tick_dt(time, w[1])
    } else {
        total
    };
    let passed = if wipes {
        0.0 >= t
    } else if u && w[2] == 0 {
        total >= t
    } else {
        (u && y >= t) || w[4] != 0
    };
    Step {
        real: y,
        boolean: passed,
        next: [
            word_of(y),
            word_of(time),
            u.into(),
            reset.into(),
            passed.into(),
        ],
    }
}

/// Words: timer, previous time, previous input, held.
pub(super) fn true_delay(s: &[u64], time: f64, inputs: &[u64], w: &[u64]) -> Step {
    let u = inputs[0] != 0;
    let delay = positive_duration(real_of(s[0]));
    let first = w[1] == UNSET;
    let (y, timer) = match (u, first) {
        (false, _) => (false, 0.0),
        (true, true) if s[1] != 0 && delay > 0.0 => (false, 0.0),
        (true, true) => (true, delay),
        (true, false) if w[3] != 0 => (true, delay),
        (true, false) if w[2] == 0 => (delay <= 0.0, 0.0),
        (true, false) => {
            let sum = real_of(w[0]) + tick_dt(time, w[1]);
            (sum >= delay, sum)
        }
    };
    Step {
        real: 0.0,
        boolean: y,
        next: [word_of(timer), word_of(time), u.into(), y.into(), 0],
    }
}

/// Output and timer of a hold: after the first tick it flips exactly when the input differs from
/// the output and the timer reaches what the present output needs.
pub(super) fn hold(first: bool, input: bool, held: bool, timer: f64, need: f64) -> (bool, f64) {
    if first {
        (input, 0.0)
    } else if input != held && timer >= need {
        (!held, 0.0)
    } else {
        (held, timer)
    }
}

/// Words: held, timer, previous time.
pub(super) fn true_false_hold(s: &[u64], time: f64, inputs: &[u64], w: &[u64]) -> Step {
    let held = w[0] != 0;
    let need = positive_duration(real_of(if held { s[0] } else { s[1] }));
    let timer = real_of(w[1]) + tick_dt(time, w[2]);
    let (y, timer) = hold(w[2] == UNSET, inputs[0] != 0, held, timer, need);
    Step {
        real: 0.0,
        boolean: y,
        next: [y.into(), word_of(timer), word_of(time), 0, 0],
    }
}

/// Words: held, timer, previous time. The second input is the clear.
pub(super) fn true_hold_with_reset(s: &[u64], time: f64, inputs: &[u64], w: &[u64]) -> Step {
    let (u, clear) = (inputs[0] != 0, inputs[1] != 0);
    let held = w[0] != 0 && w[2] != UNSET;
    let run = real_of(w[1]) + tick_dt(time, w[2]);
    let y = !clear && (u || (held && run < positive_duration(real_of(s[0]))));
    let timer = if y && held { run } else { 0.0 };
    Step {
        real: 0.0,
        boolean: y,
        next: [y.into(), word_of(timer), word_of(time), 0, 0],
    }
}
