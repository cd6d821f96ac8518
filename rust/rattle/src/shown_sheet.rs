//! The worked example of docs/SHEET.md: the oven's sheet, run by the proved library.
use comparison::Kind;
use comparison::sheet::{Row, words_of};

use crate::boundary::answer_column;
use crate::guarded;

/// k, ti, td, r, `y_max`, `y_min`, ni, nd, `xi_start`, `yd_start`, `y_reset` of the heater's controller.
const PI: [f64; 11] = [1.0, 240.0, 0.1, 20.0, 1.0, 0.0, 0.9, 10.0, 0.0, 0.0, 0.0];

/// The thermocouple, tick by tick.
const OVEN: [f64; 9] = [25.0, 55.0, 75.0, 84.0, 85.0, 85.0, 86.0, 85.0, 85.0];

/// Seconds between two ticks.
const STEP: f64 = 60.0;

/// The rows that feed a row further down.
const MEAN: u64 = 0;
const POWER: u64 = 2;

/// The sheet's rows: the mean of the thermocouple; the heater, whose measurement is that mean; the boards' power; the soak clock,
/// which runs while they have it.
#[must_use]
pub fn rows() -> Vec<Row> {
    let numbers = PI.map(f64::to_bits);
    let pi = [&[1], &numbers[..], &[1]].concat();
    let [mean, wait, soak] = [120.0, 60.0, 120.0].map(f64::to_bits);
    let [measured, powered] = [MEAN, POWER].map(|row| answer_column(row, 0));
    vec![
        Row::new(Kind::MovingAverage, &[mean], [0, 0, 0]),
        Row::new(Kind::Pid, &pi, [1, measured, 0]),
        Row::new(Kind::TrueDelay, &[wait, 1], [2, 0, 0]),
        Row::new(Kind::TimerAccumulating, &[soak], [powered, 3, 0]),
    ]
}

/// The words of its region.
pub const LENGTH: usize = 4110 + 2 + 4 + 5;

/// A line for each tick. Of the answers the program reads one, the mean: in the next tick the trays are warm if it was 80 or above.
///
/// # Panics
/// If a call is refused or warns.
#[must_use]
pub fn table() -> String {
    let (rows, setpoint) = (words_of(&rows()), 85f64.to_bits());
    let (mut region, mut answers) = ([0; LENGTH], [0; 8]);
    assert_eq!(guarded::sheet_start(&rows, &mut region).refusal, 0);
    let mut line = |(n, oven): (usize, f64)| {
        let (time, warm) = (n as f64 * STEP, f64::from_bits(answers[0]) >= 80.0);
        let words = [oven.to_bits(), setpoint, warm.into(), 0, 0, 0, 0, 0];
        let said = guarded::sheet_tick(&rows, time.to_bits(), &words, &mut region, &mut answers);
        assert_eq!((said.refusal, said.warning), (0, 0));
        let [mean, heat, soak] = [0, 2, 6].map(|n| f64::from_bits(answers[n]));
        format!(
            "| {time} | {oven} | {} | {mean:.3} | {heat:.3} | {} | {soak} | {} |",
            words[2], answers[4], answers[7]
        )
    };
    let lines: Vec<String> = OVEN.into_iter().enumerate().map(&mut line).collect();
    lines.join("\n")
}
