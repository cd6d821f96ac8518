//! Sheets whose rows feed rows, from a start on, with the answers that document 02 gives them, worked out by hand.
use super::Sheet;
use crate::Kind;
use crate::inputs::bench_controller;
use crate::sheet::{Row, SheetAnswer, SheetCalls};

/// A tick's time and words, and the answers that are due.
type Tick = (f64, [u64; 8], Vec<u64>);

/// Rows, their ticks from a start on, and the region's first words after them.
struct Worked {
    name: &'static str,
    rows: Vec<Row>,
    ticks: Vec<Tick>,
    region: Vec<u64>,
}

fn w(x: f64) -> u64 {
    x.to_bits()
}

/// These words of a tick; the others are NaNs.
fn words(first: &[u64]) -> [u64; 8] {
    std::array::from_fn(|n| first.get(n).copied().unwrap_or(w(f64::NAN)))
}

/// Sixteen rows, each of which doubles the answer of the row above.
fn chain() -> Worked {
    let double = bench_controller(0, 2.0, 0.0);
    let above = |n: u64| if n == 0 { 0 } else { 8 + 2 * (n - 1) };
    let rows = (0..16).map(|n| Row::new(Kind::Pid, &double, [above(n), 1, 1]));
    let answers = (1..=16).flat_map(|n| [w(f64::from(1 << n) / 65536.0), 0]);
    Worked {
        name: "sixteen rows, each reads the row above",
        rows: rows.collect(),
        ticks: vec![(0.0, words(&[w(1.0 / 65536.0), 0]), answers.collect())],
        region: vec![],
    }
}

/// A true is the least subnormal, -0.0 is true, a second answer is 1 or 0, and what a block lacks is 0.
fn bits() -> Worked {
    let p = bench_controller(0, 1.0, 0.0);
    let mut at_minus_zero = p.clone();
    (at_minus_zero[5], at_minus_zero[6]) = (w(-0.0), w(-0.0));
    let hold = |columns| Row::new(Kind::TrueHoldWithReset, &[w(2.0)], columns);
    let rows = vec![
        hold([0, 1, 1]),
        Row::new(Kind::Pid, &p, [8, 1, 1]), // a true as a real
        Row::new(Kind::Pid, &at_minus_zero, [2, 1, 1]),
        hold([12, 1, 1]), // -0.0 as a boolean
        hold([13, 1, 1]), // the second answer that a controller lacks
        Row::new(Kind::TimerAccumulating, &[w(0.0)], [1, 1, 1]),
        Row::new(Kind::Pid, &p, [19, 9, 1]), // passed, and what a hold lacks, as reals
        hold([19, 9, 1]),                    // the same as booleans
    ];
    let least = w(5e-324);
    let firsts = [1, least, w(-0.0), 1, 0, w(0.0), least, 1];
    let answers = firsts.into_iter().enumerate();
    let answers = answers.flat_map(|(n, first)| [first, u64::from(n == 5)]);
    let held = |held| [held, 0, w(0.0)];
    Worked {
        name: "a word is handed on as its bits",
        rows,
        ticks: vec![(0.0, words(&[1, 0, w(0.5)]), answers.collect())],
        region: [
            &held(1)[..],
            &held(1),
            &held(0),
            &[0, w(0.0), 0, 0, 1],
            &held(1),
        ]
        .concat(),
    }
}

/// The row above would answer 1.0 after its own update: the integrator below takes the 0.25 that its emit saw.
fn updates() -> Worked {
    let pi = bench_controller(1, 1.0, 0.0);
    let words = words(&[w(0.5), w(0.25), w(0.125)]);
    let answers = |above, below| vec![w(above), 0, w(below), 0];
    Worked {
        name: "an update takes what its emit saw",
        rows: vec![
            Row::new(Kind::Pid, &pi, [0, 1, 1]),
            Row::new(Kind::Pid, &pi, [8, 2, 2]),
        ],
        ticks: vec![
            (0.0, words, answers(0.25, 0.125)),
            (2.0, words, answers(0.25, 0.125)),
        ],
        region: [1.0, 2.0, 0.5, 2.0].map(w).to_vec(),
    }
}

/// A reset that a row answers, and a clock that counts while it answers true.
fn wiping() -> Worked {
    let clock = |columns| Row::new(Kind::TimerAccumulating, &[w(9.0)], columns);
    let tick = |time, reset, [hold, first, second]: [u64; 3]| {
        let answers = vec![hold, 0, first, 0, second, 0];
        (time, words(&[reset, 1, 0]), answers)
    };
    let (half, end) = (w(0.5), w(3.5));
    Worked {
        name: "a fed reset wipes",
        rows: vec![
            Row::new(Kind::TrueHoldWithReset, &[w(1.0)], [0, 2, 2]),
            clock([1, 8, 8]),
            clock([8, 9, 9]),
        ],
        ticks: vec![
            tick(0.0, 0, [0, 0, 0]),
            tick(1.0, 0, [0, w(1.0), 0]),
            tick(3.0, 1, [1, 0, 0]),
            tick(3.5, 1, [1, half, half]),
        ],
        region: vec![1, half, end, half, end, 1, 1, 0, half, end, 1, 0, 0],
    }
}

/// Document 02's own: a controller takes a mean as its measurement.
fn mean() -> Worked {
    let words = words(&[w(3.0), w(3.25)]);
    Worked {
        name: "a controller measures a mean",
        rows: vec![
            Row::new(Kind::MovingAverage, &[w(2.0)], [0, 0, 0]),
            Row::new(Kind::Pid, &bench_controller(0, 2.0, 0.0), [1, 8, 8]),
        ],
        ticks: vec![
            (0.0, words, vec![w(0.0), 0, w(1.0), 0]),
            (2.0, words, vec![w(3.0), 0, w(0.5), 0]),
        ],
        region: [w(6.0), w(0.0), w(2.0), 0, 2, 0, w(0.0), w(2.0)].to_vec(),
    }
}

/// A damper's ratio is what a controller answers: 0.25, and from 5 on 0.75, which begins a cycle there.
fn damper() -> Worked {
    let tick = |time, measured, ratio, output| {
        let answers = vec![w(ratio), 0, output, 0];
        (time, words(&[w(1.0), w(measured)]), answers)
    };
    Worked {
        name: "a controller's answer is the ratio of a pulse",
        rows: vec![
            Row::new(Kind::Pid, &bench_controller(0, 1.0, 0.0), [0, 1, 1]),
            Row::new(
                Kind::LogicalVariablePulse,
                &[w(4.0), w(0.125), w(1.0)],
                [8, 0, 0],
            ),
        ],
        ticks: vec![
            tick(0.0, 0.75, 0.25, 1),
            tick(0.75, 0.75, 0.25, 1),
            tick(1.0, 0.75, 0.25, 0),
            tick(4.0, 0.75, 0.25, 1),
            tick(5.0, 0.25, 0.75, 1),
            tick(7.5, 0.25, 0.75, 1),
            tick(8.0, 0.25, 0.75, 0),
        ],
        region: vec![w(0.75), w(5.0), 0, w(0.0), w(8.0)],
    }
}

/// Runs all of them by these calls.
///
/// # Panics
/// If an answer or a word is another than the one that is due.
pub fn run(calls: &SheetCalls) {
    for worked in [chain(), bits(), updates(), wiping(), mean(), damper()] {
        let mut sheet = Sheet::new(worked.rows);
        let started = sheet.start().made(calls);
        assert_eq!(started.answer, SheetAnswer::default(), "{}", worked.name);
        sheet.region = started.region;
        for (time, words, due) in worked.ticks {
            let ticked = sheet.tick(w(time), words).made(calls);
            assert_eq!(ticked.answer, SheetAnswer::default(), "{}", worked.name);
            assert_eq!(ticked.answers, due, "{} at {time}", worked.name);
            sheet.region = ticked.region;
        }
        let first = &sheet.region[..worked.region.len()];
        assert_eq!(first, worked.region, "{}", worked.name);
    }
}
