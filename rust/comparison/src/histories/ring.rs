//! Long runs of the moving average from a fresh start: the calls that are compared and the Rust in
//! step, the ring kept sound by the model's word and the calls' own (document 02, request 2), and the
//! halving search (request 7) finding the point that the walk finds.
use crate::effects::ring_effects;
use crate::inputs::{self, Rng};
use crate::model::leaves::{is_finite, real_of};
use crate::oracle::Oracle;
use crate::ring::Ring;
use crate::tally::{Class, Tally};
use crate::{Answer, Calls, Kind, TickWords, model};

const KIND: Kind = Kind::MovingAverage;

/// Windows and the number of ticks of a run over each.
pub const WINDOWS: [(f64, u64); 11] = [
    (0.0, 6000),
    (2.0, 6000),
    (16.0, 9000),
    (300.0, 6000),
    (1024.0, 6000),
    (1024.5, 6000),
    (1100.0, 6000),
    (3600.0, 18000),
    (65536.0, 400),
    (1e6, 200),
    (f64::MAX, 100),
];

/// How time goes on in a run.
#[derive(Clone, Copy, Debug)]
enum Pace {
    /// A second a tick.
    Steady,
    /// Halves of the ring's resolution, so that points coalesce.
    Halves,
    /// Two ticks close together, then the rest of two resolutions: the most points a ring keeps.
    Pairs,
    /// Small parts of the window.
    Parts,
    /// From -0.0, standing still at times and leaping a window at others.
    Leaps,
}

const PACES: [Pace; 5] = [
    Pace::Steady,
    Pace::Halves,
    Pace::Pairs,
    Pace::Parts,
    Pace::Leaps,
];

impl Pace {
    fn step(self, r: &mut Rng, n: u64, delta: f64, resolution: f64) -> f64 {
        match self {
            Pace::Steady => 1.0,
            Pace::Halves => resolution * r.below(5) as f64 * 0.5,
            Pace::Pairs => resolution * if n % 2 == 0 { 0.125 } else { 1.875 },
            Pace::Parts => delta.min(1e5) * r.unit() * r.unit() * 0.01,
            Pace::Leaps => {
                let steps = [0.0, 0.5, 1.0, resolution, 2.0 * resolution, delta.min(1e9)];
                r.pick(&steps)
            }
        }
    }
}

/// Request 7: a halving search looks at most so often.
const MOST_LOOKS: u64 = 18;

/// What the long runs must meet.
pub const EXPECTED: [Class; 6] = [
    Class::Accepted,
    Class::Warning,
    Class::Pruned,
    Class::Appended,
    Class::Overwritten,
    Class::Nan,
];

/// Runs these windows at every pace; each run that differs is one difference. Also their number.
#[must_use]
pub fn compare(subject: &Calls, windows: &[(f64, u64)], seed: u64) -> (u64, Tally) {
    let mut r = Rng::new(seed, 400);
    let mut tally = Tally::default();
    let mut runs = 0;
    for &(delta, ticks) in windows {
        for pace in PACES {
            runs += 1;
            let mut run = LongRun::new(subject, delta, pace);
            let differs = (0..ticks).find_map(|n| {
                let whole = n % 64 == 0 || n + 1 == ticks;
                run.tick(&mut r, n, whole, &mut tally)
            });
            let differs = differs.or_else(|| run.at_once());
            let shown = differs.map(|what| format!("delta {delta} {pace:?}: {what}"));
            tally.differences.extend(shown);
        }
    }
    (runs, tally)
}

struct LongRun<'a> {
    subject: &'a Calls,
    settings: [u64; 1],
    pace: Pace,
    oracle: Oracle,
    time: f64,
    mine: Vec<u64>,
    theirs: Vec<u64>,
    /// The ticks so far, and what each answers.
    ticks: Vec<TickWords>,
    answers: Vec<Answer>,
}

impl LongRun<'_> {
    fn new(subject: &Calls, delta: f64, pace: Pace) -> LongRun<'_> {
        let settings = [delta.to_bits()];
        let oracle = Oracle::new(KIND, &settings);
        let theirs = oracle.started();
        let mut mine = vec![7; theirs.len()];
        (subject.start)(KIND, &settings, &mut mine);
        LongRun {
            subject,
            settings,
            pace,
            oracle,
            time: if matches!(pace, Pace::Leaps) {
                -0.0
            } else {
                0.0
            },
            mine,
            theirs,
            ticks: vec![],
            answers: vec![],
        }
    }

    /// All ticks once more, in one call from a fresh start.
    fn at_once(&self) -> Option<String> {
        let (s, mut region) = (&self.settings, vec![7; self.theirs.len()]);
        (self.subject.start)(KIND, s, &mut region);
        let answers = (self.subject.run)(KIND, s, &self.ticks, &mut region);
        let differs = answers.as_ref() != Ok(&self.answers) || region != self.theirs;
        differs.then(|| "the ticks in one call differ".into())
    }

    /// One tick; `whole` looks at every word and at the order of the ring.
    fn tick(&mut self, r: &mut Rng, n: u64, whole: bool, tally: &mut Tally) -> Option<String> {
        if !self.time.is_finite() {
            return None;
        }
        let time = self.time;
        let found = self.search();
        let fault = if !self.both(input(r, self.pace), whole, tally) {
            Some("the calls and the Rust differ")
        } else if whole && !self.is_sound() {
            Some("the ring is not sound")
        } else if found.by_walk != found.by_halving || found.looks > MOST_LOOKS {
            Some("the halving search differs or looks too often")
        } else {
            None
        };
        let ring = self.ring();
        self.time += self.pace.step(r, n, ring.delta, ring.resolution());
        fault.map(|fault| format!("tick {n} at {time}: {fault}"))
    }

    /// An emit and an update of both; whether answers and words are the same.
    fn both(&mut self, u: u64, whole: bool, tally: &mut Tally) -> bool {
        let (time, s, inputs) = (self.time, &self.settings, [u, 0, 0]);
        let ring = (self.theirs[3], self.theirs[4]);
        let emitted = self.oracle.emit(time, &inputs, &self.theirs);
        let updated = self.oracle.update(time, &inputs, &mut self.theirs);
        let answers = [
            (self.subject.emit)(KIND, s, time.to_bits(), &inputs, &self.mine),
            (self.subject.update)(KIND, s, time.to_bits(), &inputs, &mut self.mine),
        ];
        tally.see(Class::Accepted);
        tally.see(Class::Accepted);
        tally.see_outputs(KIND, &emitted);
        tally.see_all(&ring_effects(ring, &self.theirs));
        if updated.warning {
            tally.see(Class::Warning);
        }
        self.ticks.push([time.to_bits(), u, 0, 0]);
        self.answers.push(Answer {
            warning: updated.warning,
            ..emitted
        });
        let words = if whole { self.mine.len() } else { 6 };
        answers == [emitted, updated] && self.mine[..words] == self.theirs[..words]
    }

    fn ring(&self) -> Ring<'_> {
        Ring::of(&self.settings, &self.theirs).expect("a started region has one")
    }

    /// Of the Rust's words, which the calls have left too.
    fn is_sound(&self) -> bool {
        let (s, w) = (&self.settings, &self.theirs);
        model::sound(KIND, s, w) && (self.subject.sound)(KIND, s, w)
    }

    /// The first point at or before which the window's start lies, found in both ways.
    fn search(&self) -> Found {
        let (ring, count) = (self.ring(), self.ring().count());
        let target = self.time - ring.delta;
        let at_or_before = |n: &u64| target <= ring.time(*n);
        let (mut low, mut high, mut looks) = (0, count, 0);
        while low < high {
            let middle = low + (high - low) / 2;
            looks += 1;
            if at_or_before(&middle) {
                high = middle;
            } else {
                low = middle + 1;
            }
        }
        Found {
            by_walk: (0..count).find(at_or_before).unwrap_or(count),
            by_halving: low,
            looks,
        }
    }
}

struct Found {
    by_walk: u64,
    by_halving: u64,
    looks: u64,
}

/// Tame inputs at a steady pace; else any, but only one in fifty of those that spoil the integral.
fn input(r: &mut Rng, pace: Pace) -> u64 {
    if matches!(pace, Pace::Steady) {
        return inputs::tame(r).to_bits();
    }
    let u = inputs::any_real(r);
    let spoils = !is_finite(u) || real_of(u).abs() > 1e100;
    if spoils && !r.one_in(50) { 0 } else { u }
}
