//! The worked example of docs/PULSE.md: a damper at 30 %, then at 60 %, run by the proved library.
use comparison::Kind;

use crate::run;
use crate::shown::{numbers, wave};

/// Period, `delta_u` and the minimum hold.
const SETTINGS: [f64; 3] = [10.0, 0.05, 1.0];

/// Time and duty ratio of each tick. The ratio changes half a second after the output has: it waits for the minimum hold.
const TICKS: [(f64, f64); 20] = [
    (0.0, 0.3),
    (1.0, 0.3),
    (2.0, 0.3),
    (3.0, 0.3),
    (5.0, 0.3),
    (7.0, 0.3),
    (9.0, 0.3),
    (10.0, 0.3),
    (11.0, 0.3),
    (12.0, 0.3),
    (13.0, 0.3),
    (13.5, 0.6),
    (14.5, 0.6),
    (16.0, 0.6),
    (18.0, 0.6),
    (19.5, 0.6),
    (21.0, 0.6),
    (23.5, 0.6),
    (25.0, 0.6),
    (27.0, 0.6),
];

/// The run as a diagram: lines for the times, the ratio, the output, the timer and the cycles' start.
///
/// # Panics
/// If a call is refused.
#[must_use]
pub fn text() -> String {
    let [period, delta_u, hold] = SETTINGS;
    let ticks = TICKS.map(|(time, u)| (time, [u.to_bits(), 0, 0]));
    let kind = Kind::LogicalVariablePulse;
    let run = run(kind, &SETTINGS.map(f64::to_bits), &ticks);
    let stored = |n: usize| run.iter().map(move |(_, w)| f64::from_bits(w[n]));
    let mut text = format!(
        "{}, period = {period}, delta_u = {delta_u}, min_true_false_hold = {hold}\n\n",
        kind.name()
    );
    numbers(&mut text, "time", TICKS.iter().map(|(time, _)| *time));
    numbers(&mut text, "u", TICKS.iter().map(|(_, u)| *u));
    wave(&mut text, "output", run.iter().map(|(a, _)| a.boolean));
    numbers(&mut text, "timer", stored(3));
    numbers(&mut text, "start", stored(1));
    text
}
