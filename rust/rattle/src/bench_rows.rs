//! Rows P3 to P6 of document 01's bench table, run on the proved controllers: the table of docs/CONTROLLER.md.
use comparison::inputs::bench_controller;
use comparison::{Answer, Kind};

use crate::run;

/// A tick's time, `u_s` and trigger; `Pid` has none.
type Tick = (f64, f64, Option<u64>);

/// What it answers, and the words that it leaves.
type Left = (Answer, Vec<u64>);

/// A run from a fresh start: u_m is 0.25, r 1, the limits 0 and 1, reverse_acting.
struct Row {
    title: &'static str,
    kind: Kind,
    /// The type's number, k and `y_reset`.
    settings: (u64, f64, f64),
    ticks: &'static [Tick],
}

const ROWS: [Row; 4] = [
    Row {
        title: "P3: `Pid` P, k 2",
        kind: Kind::Pid,
        settings: (0, 2.0, 0.0),
        ticks: &[(0.0, 0.5, None)],
    },
    Row {
        title: "P4: `Pid` PI, k 1, ti 0.5, ni 0.9, xi_start 0",
        kind: Kind::Pid,
        settings: (1, 1.0, 0.0),
        ticks: &[(0.0, 0.5, None), (2.0, 0.5, None), (3.0, 0.5, None)],
    },
    Row {
        title: "P5: `PidWithReset`, as P4, y_reset 0.75",
        kind: Kind::PidWithReset,
        settings: (1, 1.0, 0.75),
        ticks: &[
            (0.0, 0.5, Some(0)),
            (2.0, 0.5, Some(0)),
            (3.0, 0.5, Some(1)),
            (4.0, 0.5, Some(1)),
        ],
    },
    Row {
        title: "P6: as P3",
        kind: Kind::Pid,
        settings: (0, 2.0, 0.0),
        ticks: &[(0.0, f64::NAN, None)],
    },
];

const U_M: f64 = 0.25;

impl Row {
    /// A line for each tick: time, inputs, output and the integrator after it.
    fn lines(&self) -> Vec<String> {
        let (mode, k, y_reset) = self.settings;
        let words = |&(t, u_s, trigger): &Tick| {
            let inputs = [u_s.to_bits(), U_M.to_bits(), trigger.unwrap_or(0)];
            (t, inputs)
        };
        let ticks: Vec<_> = self.ticks.iter().map(words).collect();
        let run = run(self.kind, &bench_controller(mode, k, y_reset), &ticks);
        let titles = std::iter::once(self.title).chain(std::iter::repeat(""));
        let shown = titles.zip(self.ticks).zip(&run);
        shown
            .map(|((title, tick), left)| line(title, tick, left))
            .collect()
    }
}

fn line(title: &str, &(time, u_s, trigger): &Tick, (answer, left): &Left) -> String {
    let trigger = trigger.map_or(String::new(), |t| t.to_string());
    let y = f64::from_bits(answer.real);
    let integrator = left.first().map(|&w| format!("{:?}", f64::from_bits(w)));
    let integrator = integrator.unwrap_or("none".into());
    let line = format!("| {title} | {time} | {u_s} | {U_M} | {trigger} | {y:?} | {integrator} |");
    line.replace("|  |", "| |")
}

/// The table's lines.
#[must_use]
pub fn table() -> String {
    let lines: Vec<String> = ROWS.iter().flat_map(Row::lines).collect();
    lines.join("\n")
}
