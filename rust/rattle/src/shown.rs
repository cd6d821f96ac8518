//! The worked examples of docs/TIMERS.md: short runs of the proved timers as timing diagrams.
use std::fmt::Write as _;

use comparison::Kind;

use crate::run;

/// A run from a fresh start.
pub struct Example {
    pub kind: Kind,
    /// The settings as a reader sees them, and as words.
    pub title: &'static str,
    pub settings: &'static [f64],
    /// For each tick its time and its inputs, one letter each: T true, f false.
    pub ticks: &'static [(f64, &'static str)],
    /// What the inputs are called, what the stored timer is called, and its word.
    pub inputs: &'static [&'static str],
    pub timer: (&'static str, usize),
    pub output: &'static str,
}

/// One for each timer.
pub const EXAMPLES: [Example; 4] = [
    Example {
        kind: Kind::TimerAccumulating,
        title: "TimerAccumulating, t = 3",
        settings: &[3.0],
        ticks: &[
            (0.0, "Tf"),
            (1.0, "Tf"),
            (2.0, "ff"),
            (3.0, "Tf"),
            (4.0, "Tf"),
            (5.0, "Tf"),
            (6.0, "TT"),
            (7.0, "TT"),
            (8.0, "Tf"),
        ],
        inputs: &["input", "reset"],
        timer: ("total", 0),
        output: "passed",
    },
    Example {
        kind: Kind::TrueDelay,
        title: "TrueDelay, delay_time = 2, delay_on_init = false",
        settings: &[2.0, 0.0],
        ticks: &[
            (0.0, "T"),
            (1.0, "f"),
            (2.0, "T"),
            (3.0, "T"),
            (4.5, "T"),
            (5.0, "T"),
            (6.0, "f"),
        ],
        inputs: &["input"],
        timer: ("timer", 0),
        output: "output",
    },
    Example {
        kind: Kind::TrueFalseHold,
        title: "TrueFalseHold, true_hold_duration = 2, false_hold_duration = 1",
        settings: &[2.0, 1.0],
        ticks: &[
            (0.0, "T"),
            (1.0, "f"),
            (2.0, "f"),
            (2.5, "T"),
            (3.0, "T"),
            (4.0, "T"),
            (6.0, "f"),
        ],
        inputs: &["input"],
        timer: ("timer", 1),
        output: "output",
    },
    Example {
        kind: Kind::TrueHoldWithReset,
        title: "TrueHoldWithReset, duration = 2",
        settings: &[2.0],
        ticks: &[
            (0.0, "Tf"),
            (1.0, "ff"),
            (2.0, "ff"),
            (3.0, "Tf"),
            (4.0, "Tf"),
            (5.5, "ff"),
            (6.0, "Tf"),
            (7.0, "TT"),
            (8.0, "ff"),
        ],
        inputs: &["input", "clear"],
        timer: ("timer", 1),
        output: "output",
    },
];

/// The columns of a tick.
const WIDTH: usize = 6;

impl Example {
    /// The run as a diagram: a line for the times, for each input, for the output and the timer.
    ///
    /// # Panics
    /// If a call of the example is refused.
    #[must_use]
    pub fn text(&self) -> String {
        let settings: Vec<u64> = self.settings.iter().map(|x| x.to_bits()).collect();
        let ticks: Vec<_> = self.ticks.iter().map(|&(t, v)| (t, words(v))).collect();
        let run = run(self.kind, &settings, &ticks);
        let outputs = run.iter().map(|(answer, _)| answer.boolean);
        let timers = run.iter().map(|(_, w)| f64::from_bits(w[self.timer.1]));
        let mut text = format!("{}\n\n", self.title);
        numbers(&mut text, "time", self.ticks.iter().map(|(time, _)| *time));
        for (n, name) in self.inputs.iter().enumerate() {
            let input = |(_, inputs): &(f64, &str)| inputs.as_bytes()[n] == b'T';
            wave(&mut text, name, self.ticks.iter().map(input));
        }
        wave(&mut text, self.output, outputs);
        numbers(&mut text, self.timer.0, timers);
        text
    }
}

/// The input words of a tick.
fn words(inputs: &str) -> [u64; 3] {
    let letters = inputs.as_bytes();
    [0, 1, 2].map(|n| u64::from(letters.get(n) == Some(&b'T')))
}

/// A number under each tick.
pub(crate) fn numbers(text: &mut String, name: &str, numbers: impl Iterator<Item = f64>) {
    let shown: String = numbers.map(|x| format!("{x:<WIDTH$}")).collect();
    writeln!(text, "{name:8}{}", shown.trim_end()).expect("text grows");
}

/// High for true, low for false, from each tick to the next.
pub(crate) fn wave(text: &mut String, name: &str, values: impl Iterator<Item = bool>) {
    let mut shown = String::new();
    let mut before = None;
    for value in values {
        let level = if value { '‾' } else { '_' };
        let edge = match before {
            Some(other) if other != value => {
                if value {
                    '/'
                } else {
                    '\\'
                }
            }
            _ => level,
        };
        shown.push(edge);
        shown.extend(std::iter::repeat_n(level, WIDTH - 1));
        before = Some(value);
    }
    writeln!(text, "{name:8}{shown}").expect("text grows");
}
