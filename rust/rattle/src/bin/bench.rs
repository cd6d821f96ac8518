//! Runs the prepared ticks of a case on one side, for tools/bench.
//!
//! - `bench cases` names the cases.
//! - `bench CASE same` fails unless all sides give the same outputs on the ticks that are prepared.
//! - `bench CASE SIDE N` runs N ticks, for a tool that counts instructions. What comes before is the same for every N.
//! - `bench CASE SIDE ns` prints the nanoseconds of a tick in the best list of ticks, of five runs.
//!
//! A side is `published`, the Rust's emit and update through `dyn Block`, which tests nothing; `run`, all ticks in one
//! `oven_run`; `tick`, an `oven_tick` each; or `calls`, an `oven_emit` and an `oven_update` each. Of a walk there are only
//! the emits of `published` and `calls`. Every side reads ticks from one prepared list and stores its answers in another.
use std::time::Instant;

use comparison::bench::driver::{asked, assert_alike};
use comparison::bench::{Case, Prepared, Published, cases};
use rattle::boundary::{self, ANSWER_WORDS, AnswerWords, Tick};

/// Ticks that are prepared for a tool that counts, of which it runs N; of walks, which are long, fewer.
const PREPARED: u64 = 3000;
const WALKS: u64 = 3;

/// A proved block with its region.
struct Proved {
    block: u64,
    settings: Vec<u64>,
    region: Vec<u64>,
}

impl Proved {
    fn new(case: &Case) -> Proved {
        Proved {
            block: case.kind as u64,
            settings: case.settings.clone(),
            region: case.region(),
        }
    }

    #[inline(never)]
    fn run(&mut self, ticks: &[Tick], answers: &mut [[u64; ANSWER_WORDS]]) {
        let (ticks, answers) = (ticks.as_flattened(), answers.as_flattened_mut());
        let refused = boundary::run(self.block, &self.settings, ticks, &mut self.region, answers);
        assert_eq!(refused, 0);
    }

    #[inline(never)]
    fn ticks(&mut self, ticks: &[Tick], answers: &mut [AnswerWords]) {
        for (tick, answer) in ticks.iter().zip(answers) {
            *answer = boundary::tick(self.block, &self.settings, *tick, &mut self.region);
        }
    }

    /// Emits, with updates unless they are walks.
    #[cfg(not(feature = "oven"))]
    #[inline(never)]
    fn calls<const WALKS: bool>(&mut self, ticks: &[Tick], answers: &mut [[AnswerWords; 2]]) {
        for (tick, answer) in ticks.iter().zip(answers) {
            answer[0] = boundary::emit(self.block, &self.settings, *tick, &self.region);
            if !WALKS {
                answer[1] = boundary::update(self.block, &self.settings, *tick, &mut self.region);
            }
        }
    }
}

/// The nanoseconds that a run took, and the outputs of each tick: the real one, and the boolean one.
struct Ran {
    ns: u128,
    outputs: Vec<[u64; 2]>,
}

/// One side, ready to run the first so many of a list of ticks. It prepares all.
type Side = Box<dyn FnMut(&[Tick], usize) -> Ran>;

/// The sides by name.
const SIDES: [&str; 4] = ["published", "run", "tick", "calls"];

fn timed(run: impl FnOnce()) -> u128 {
    let began = Instant::now();
    run();
    began.elapsed().as_nanos()
}

/// A side that stores an answer for each tick, as refusal, real and boolean words; none may be a refusal.
fn storing<A: Clone + Default + 'static>(
    mut run: impl FnMut(&[Tick], &mut [A]) + 'static,
    words: impl Fn(&A) -> [u64; 3] + 'static,
) -> Side {
    Box::new(move |ticks, count| {
        let mut answers = vec![A::default(); ticks.len()];
        let ns = timed(|| run(&ticks[..count], &mut answers[..count]));
        let outputs = |answer| {
            let [refusal, real, boolean] = words(answer);
            assert_eq!(refusal, 0);
            [real, boolean]
        };
        let outputs = answers.iter().map(outputs).collect();
        Ran { ns, outputs }
    })
}

/// The side of this name; none if the case or the archive has no such calls.
fn side(case: &Case, name: &str) -> Option<Side> {
    let mut proved = Proved::new(case);
    match (name, case.is_walk()) {
        ("published", _) => Some(published(case)),
        ("run", false) => Some(storing(
            move |t, a| proved.run(t, a),
            |a: &[u64; ANSWER_WORDS]| [a[0], a[1], a[2]],
        )),
        ("tick", false) => Some(storing(
            move |t, a| proved.ticks(t, a),
            |a: &AnswerWords| [a.refusal, a.real, a.boolean],
        )),
        #[cfg(not(feature = "oven"))]
        ("calls", walks) => Some(storing(
            move |t, a| {
                if walks {
                    proved.calls::<true>(t, a);
                } else {
                    proved.calls::<false>(t, a);
                }
            },
            |a| [a[0].refusal | a[1].refusal, a[0].real, a[0].boolean],
        )),
        _ => None,
    }
}

fn published(case: &Case) -> Side {
    let (walks, mut published) = (case.is_walk(), Published::new(case));
    Box::new(move |ticks, count| {
        let mut prepared = published.prepared(ticks);
        let ns = timed(|| {
            if walks {
                published.run::<true>(&mut prepared[..count]);
            } else {
                published.run::<false>(&mut prepared[..count]);
            }
        });
        let outputs = prepared.iter().map(Prepared::answer).collect();
        Ran { ns, outputs }
    })
}

/// Fails unless all sides that the case and the archive have give the same outputs.
fn same(case: &Case, count: u64) {
    let ticks = case.ticks(0, count);
    let ran = |name| Some(side(case, name)?(&ticks, ticks.len()).outputs);
    let outputs: Vec<_> = SIDES.into_iter().filter_map(ran).collect();
    assert_alike(case.name, &outputs);
}

/// Nanoseconds of a tick in the best of many lists. A list is short, so that a cache holds it and other work on the machine
/// leaves some alone.
fn nanoseconds(case: &Case, mut side: Side) -> f64 {
    let (lists, length) = if case.is_walk() { (30, 3) } else { (400, 1000) };
    let ns = (0..lists).map(|n| side(&case.ticks(n * length, length), length as usize).ns);
    ns.min().expect("there are lists") as f64 / length as f64
}

fn main() {
    let Some((case, rest)) = asked(cases(), |case| case.name) else {
        return;
    };
    let prepared = if case.is_walk() { WALKS } else { PREPARED };
    let [of, what] = rest.as_slice() else {
        return same(&case, prepared);
    };
    let made = || side(&case, of);
    if what == "ns" {
        let times = (0..5).filter_map(|_| Some(nanoseconds(&case, made()?)));
        let best = times.reduce(f64::min);
        println!("{}", best.map_or("-".into(), |ns| format!("{ns:.1}")));
    } else if let Some(mut side) = made() {
        let count = what.parse().expect("a number of ticks");
        side(&case.ticks(0, prepared), count);
    } else {
        std::process::exit(3);
    }
}
