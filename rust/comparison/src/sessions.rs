//! Sessions of `soak`. Stored ones are an input, a line `%`, the output, a line `%%`; an input
//! whose last line lacks its end is followed by a line `\`. Long ones are inputs alone.
use crate::inputs::{self, NOT_FINITE, Rng};
use crate::soak::soak;
use crate::{Kind, hex};

/// Sessions in a list.
const SESSIONS: usize = 60;

/// A list of sessions of a block, good and bad lines mixed.
#[must_use]
pub fn sessions(kind: Kind, seed: u64) -> String {
    let mut r = Rng::new(seed, 200 + kind as u64);
    let mut list = String::new();
    for _ in 0..SESSIONS {
        let input = session(&mut r, kind);
        let lacks_end = if input.ends_with('\n') { "" } else { "\n\\\n" };
        let output = soak(input.as_bytes());
        list += &format!("{input}{lacks_end}%\n{output}%%\n");
    }
    list
}

/// The inputs and outputs of a list.
#[must_use]
pub fn parse(list: &str) -> Vec<(String, String)> {
    let sessions = list.split_terminator("%%\n");
    sessions
        .map(|session| {
            let (input, output) = session.split_once("%\n").expect("a session has two parts");
            let input = input.strip_suffix("\n\\\n").unwrap_or(input);
            (input.to_string(), output.to_string())
        })
        .collect()
}

fn session(r: &mut Rng, kind: Kind) -> String {
    let pulses = kind == Kind::LogicalVariablePulse;
    let s = if pulses && !r.one_in(4) {
        short_cycles(r)
    } else {
        inputs::settings(r, kind)
    };
    let mut text = first_line(kind, &s);
    if r.one_in(40) {
        text = damaged(r, &text);
    }
    text.push('\n');
    let (mut previous, mut inputs) = (0.0, [0; 3]);
    for _ in 0..r.below(24) {
        let time = inputs::time_after(r, previous);
        if pulses {
            let any = r.one_in(8);
            long_inputs(r, kind, any, &mut inputs);
        } else {
            inputs = inputs::tick_inputs(r, kind);
        }
        let line = written_tick(kind, time, inputs);
        let t = f64::from_bits(time);
        if r.one_in(12) {
            text += &damaged(r, &line);
        } else {
            text += &line;
            if t.is_finite() && t >= previous {
                previous = t;
            }
        }
        text.push('\n');
    }
    if r.one_in(4) {
        text.pop();
    }
    text
}

/// A long input of a block: of its later lines one in `rare` is bad, and one in `rare` has a time
/// that is to be refused. Booleans and duty ratios keep their value for some ticks. Inputs are tame, but in the
/// last tenth of any sort: an integrator that has met a NaN keeps it.
#[must_use]
pub fn long(kind: Kind, lines: u64, rare: u64, seed: u64) -> String {
    let mut r = Rng::new(seed, 300 + kind as u64);
    let mut text = first_line(kind, &long_settings(&mut r, kind, seed)) + "\n";
    let (mut time, mut inputs) = (0.0, [0; 3]);
    for n in 0..lines {
        long_inputs(&mut r, kind, n >= lines - lines / 10, &mut inputs);
        let refused = r.one_in(rare);
        let word = if refused {
            r.pick(&[NOT_FINITE[0], NOT_FINITE[3], (time - 0.5f64).to_bits()])
        } else {
            time += step(&mut r);
            time.to_bits()
        };
        let line = written_tick(kind, word, inputs);
        let bad = !refused && r.one_in(rare);
        text += &if bad { damaged(&mut r, &line) } else { line };
        text.push('\n');
    }
    text
}

/// Settings with which the outputs move: limits that are seldom met, windows and durations of
/// seconds or minutes. The seeds 1 to 4 are a controller's types PI, PD, PID and P.
fn long_settings(r: &mut Rng, kind: Kind, seed: u64) -> Vec<u64> {
    let numbers = [0.8, 300.0, 0.5, 2.0, 20.0, -20.0, 0.9, 10.0, 0.5, 0.25, 3.0];
    if kind == Kind::LogicalVariablePulse {
        return short_cycles(r);
    }
    let item = |(n, item)| match item {
        b'c' => seed % 4,
        b'b' => r.below(2),
        _ if kind.is_controller() => f64::to_bits(numbers[n - 1]),
        _ if kind == Kind::MovingAverage => r.pick(&[2.0f64, 60.0, 300.0, 1024.0]).to_bits(),
        _ => (r.below(100) as f64 / 8.0).to_bits(),
    };
    kind.settings().bytes().enumerate().map(item).collect()
}

/// A variable pulse's with cycles of some seconds.
fn short_cycles(r: &mut Rng) -> Vec<u64> {
    let (period, hold) = (r.below(80) as f64 / 8.0, 1.0 + r.below(8) as f64 / 4.0);
    let delta_u = r.pick(&[0.01, 0.05, 0.25, 0.5]);
    [period, delta_u, hold].map(f64::to_bits).to_vec()
}

/// The seconds to the next tick, now and then none.
fn step(r: &mut Rng) -> f64 {
    match r.below(16) {
        0 => 0.0,
        1 => r.unit() * 1e-3,
        2..=5 => r.unit(),
        6 => r.unit() * 60.0,
        n => (n - 6) as f64 * 0.25,
    }
}

/// The next inputs after these.
fn long_inputs(r: &mut Rng, kind: Kind, any: bool, inputs: &mut [u64; 3]) {
    for (item, word) in kind.inputs().bytes().zip(inputs) {
        match item {
            b'r' if any => *word = inputs::any_real(r),
            b'r' if kind == Kind::LogicalVariablePulse => {
                if r.one_in(5) {
                    *word = r.unit().to_bits();
                }
            }
            b'r' => *word = inputs::tame(r).to_bits(),
            _ => *word ^= u64::from(r.one_in(5)),
        }
    }
}

fn first_line(kind: Kind, s: &[u64]) -> String {
    let items = kind.settings().bytes().zip(s);
    let written = items.map(|(item, w)| match item {
        b'c' => format!(" {}", ["P", "PI", "PD", "PID"][*w as usize]),
        b'b' => format!(" {}", u64::from(*w != 0)),
        _ => format!(" {}", hex(&[*w])),
    });
    kind.name() + &written.collect::<String>()
}

fn written_tick(kind: Kind, time: u64, inputs: [u64; 3]) -> String {
    let items = kind.inputs().bytes().zip(inputs);
    let written = items.map(|(item, w)| match item {
        b'r' => format!(" {}", hex(&[w])),
        _ => format!(" {}", u64::from(w != 0)),
    });
    hex(&[time]) + &written.collect::<String>()
}

/// A good line made into one that is not.
fn damaged(r: &mut Rng, line: &str) -> String {
    match r.below(10) {
        0 => String::new(),
        1 => format!(" {line}"),
        2 => format!("{line} "),
        3 => line.replacen(' ', "  ", 1),
        4 => line.to_lowercase() + "a",
        5 => format!("{line} 0"),
        6 => line[..line.len() - 1].to_string(),
        7 => format!("{line}\r"),
        8 => format!("{line}{}", "0".repeat(256)),
        _ => line.replacen(' ', "\t", 1),
    }
}
