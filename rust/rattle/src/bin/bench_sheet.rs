//! Runs the prepared ticks of a sheet on one side, for tools/bench.
//!
//! - `bench_sheet cases` names the cases.
//! - `bench_sheet CASE same` fails unless all sides give the same answers on the ticks that are prepared.
//! - `bench_sheet CASE SIDE N` runs N ticks, for a tool that counts instructions. What comes before is the same for every N.
//! - `bench_sheet CASE SIDE ns` prints the nanoseconds of a tick in the best list of ticks, of five runs.
//!
//! A side is `sheet`, an `oven_sheet_tick` for each tick; `singly`, an `oven_tick` for each row, top to bottom, on the row's
//! stretch and with the inputs that its columns name; or `published`, the Rust's emit of each row and then its update of each, through
//! `dyn Block`, which tests nothing. All read ticks from one prepared list and store their answers in another.
use std::ops::Range;
use std::time::Instant;

use comparison::bench::driver::{asked, assert_alike};
use comparison::bench::published_sheet::PublishedSheet;
use comparison::bench::sheet::{PERIOD, SheetCase, cases};
use comparison::model::sheet::outputs;
use comparison::sheet::{Row, Tick, words_of};
use rattle::answer;
use rattle::boundary::{self, AnswerWords, SheetWords};

/// Ticks that are prepared for a tool that counts, of which it runs N.
const PREPARED: u64 = 100 + PERIOD;

const ROWS: usize = 16;

/// Two words for each row.
type Words = [u64; 2 * ROWS];

/// A row for itself.
struct Single {
    row: Row,
    columns: [usize; 3],
    /// Whether its first output is a real.
    real: bool,
    stretch: Range<usize>,
}

/// A sheet, and its rows for themselves, over one region.
struct Proved {
    rows: Vec<u64>,
    singles: Vec<Single>,
    region: Vec<u64>,
    feeds: bool,
}

impl Proved {
    fn new(case: &SheetCase) -> Proved {
        let rows = case.rows();
        let words = words_of(&rows);
        let singles = rows.into_iter().zip(case.stretches());
        let single = |(row, stretch): (Row, _)| Single {
            columns: row.columns.map(|column| column as usize),
            real: row.kind.outputs().starts_with('r'),
            row,
            stretch,
        };
        Proved {
            rows: words,
            singles: singles.map(single).collect(),
            region: case.region(),
            feeds: case.feeds,
        }
    }

    #[inline(never)]
    fn sheet(&mut self, ticks: &[Tick], said: &mut [SheetWords], answers: &mut [Words]) {
        for (tick, (said, words)) in ticks.iter().zip(said.iter_mut().zip(answers)) {
            *said =
                boundary::sheet_tick(&self.rows, tick.time, &tick.words, &mut self.region, words);
        }
    }

    fn singly(&mut self, ticks: &[Tick], answers: &mut [[AnswerWords; ROWS]]) {
        if self.feeds {
            self.singly_fed(ticks, answers);
        } else {
            self.singly_unfed(ticks, answers);
        }
    }

    /// Top to bottom, with what each row hands on: no row of a case reads a second answer.
    #[inline(never)]
    fn singly_fed(&mut self, ticks: &[Tick], answers: &mut [[AnswerWords; ROWS]]) {
        for (tick, answers) in ticks.iter().zip(answers) {
            let mut named = [0; 8 + 2 * ROWS];
            named[..8].copy_from_slice(&tick.words);
            for (n, (single, answer)) in self.singles.iter().zip(answers).enumerate() {
                let [first, second, third] = single.columns.map(|column| named[column]);
                let words = &mut self.region[single.stretch.clone()];
                let (asked, row) = ([tick.time, first, second, third], &single.row);
                *answer = boundary::tick(row.kind as u64, &row.settings, asked, words);
                named[8 + 2 * n] = if single.real {
                    answer.real
                } else {
                    answer.boolean
                };
            }
        }
    }

    #[inline(never)]
    fn singly_unfed(&mut self, ticks: &[Tick], answers: &mut [[AnswerWords; ROWS]]) {
        for (tick, answers) in ticks.iter().zip(answers) {
            for (single, answer) in self.singles.iter().zip(answers) {
                let [first, second, third] = single.columns.map(|column| tick.words[column]);
                let words = &mut self.region[single.stretch.clone()];
                let (asked, row) = ([tick.time, first, second, third], &single.row);
                *answer = boundary::tick(row.kind as u64, &row.settings, asked, words);
            }
        }
    }

    /// What the rows answer for themselves, as the words of a sheet.
    fn gathered(&self, answers: &[AnswerWords; ROWS]) -> Words {
        let mut words = [0; 2 * ROWS];
        let to = words.chunks_exact_mut(2);
        for ((single, said), pair) in self.singles.iter().zip(answers).zip(to) {
            assert_eq!(said.refusal, 0);
            pair.copy_from_slice(&outputs(single.row.kind, &answer(*said)));
        }
        words
    }
}

/// The nanoseconds that a run took, and what each tick answered.
struct Ran {
    ns: u128,
    answers: Vec<Words>,
}

/// One side, ready to run the first so many of a list of ticks. It prepares all.
type Side = Box<dyn FnMut(&[Tick], usize) -> Ran>;

/// The sides by name.
const SIDES: [&str; 3] = ["sheet", "singly", "published"];

fn timed(run: impl FnOnce()) -> u128 {
    let began = Instant::now();
    run();
    began.elapsed().as_nanos()
}

fn sheet(mut proved: Proved) -> Side {
    Box::new(move |ticks, count| {
        let mut said = vec![SheetWords::default(); ticks.len()];
        let mut answers = vec![[0; 2 * ROWS]; ticks.len()];
        let ns = timed(|| proved.sheet(&ticks[..count], &mut said, &mut answers));
        assert!(said.iter().all(|said| said.refusal == 0));
        Ran { ns, answers }
    })
}

fn singly(mut proved: Proved) -> Side {
    Box::new(move |ticks, count| {
        let mut answers = vec![[AnswerWords::default(); ROWS]; ticks.len()];
        let ns = timed(|| proved.singly(&ticks[..count], &mut answers));
        let answers = answers.iter().map(|said| proved.gathered(said)).collect();
        Ran { ns, answers }
    })
}

fn published(mut sheet: PublishedSheet) -> Side {
    Box::new(move |ticks, count| {
        let prepared = PublishedSheet::prepared(ticks);
        let mut answers = vec![[0; 2 * ROWS]; ticks.len()];
        let ns = timed(|| sheet.run(&prepared[..count], &mut answers));
        Ran { ns, answers }
    })
}

fn side(case: &SheetCase, name: &str) -> Side {
    match name {
        "sheet" => sheet(Proved::new(case)),
        "singly" => singly(Proved::new(case)),
        "published" => published(PublishedSheet::new(case)),
        _ => panic!("no side '{name}'"),
    }
}

/// Fails unless all sides give the same answers.
fn same(case: &SheetCase) {
    let ticks = case.ticks(0, PREPARED);
    let answers = SIDES.map(|name| side(case, name)(&ticks, ticks.len()).answers);
    assert_alike(case.name, &answers);
}

/// Nanoseconds of a tick in the best of many lists, which are short.
fn nanoseconds(case: &SheetCase, name: &str) -> f64 {
    let mut side = side(case, name);
    let ns = (0..400).map(|n| side(&case.ticks(n * PERIOD, PERIOD), PERIOD as usize).ns);
    ns.min().expect("there are lists") as f64 / PERIOD as f64
}

fn main() {
    let Some((case, rest)) = asked(cases(), |case| case.name) else {
        return;
    };
    match rest.as_slice() {
        [of, what] if what == "ns" => {
            let best = (0..5).map(|_| nanoseconds(&case, of)).reduce(f64::min);
            println!("{:.1}", best.expect("five runs"));
        }
        [of, what] => {
            let count = what.parse().expect("a number of ticks");
            side(&case, of)(&case.ticks(0, PREPARED), count);
        }
        _ => same(&case),
    }
}
