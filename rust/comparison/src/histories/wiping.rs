//! A reset wipes the past (demand 3): two regions of any words, one wiping tick, then the same
//! calls to both. States and answers agree, and are what the account of the history says.
//! `TrueFalseHold` has no wiping tick: its histories begin at a fresh start (request 6).
use super::Tick;
use super::accounts::{answer, integrator, wipes};
use crate::inputs::{self, Rng};
use crate::model::leaves::word_of;
use crate::oracle::Oracle;
use crate::tally::{Class, Tally};
use crate::{Kind, hex, model};

pub const KINDS: [Kind; 5] = [
    Kind::PidWithReset,
    Kind::TimerAccumulating,
    Kind::TrueDelay,
    Kind::TrueFalseHold,
    Kind::TrueHoldWithReset,
];

/// Calls after the wiping tick.
const CALLS: u64 = 16;

/// What the histories of a block must meet.
#[must_use]
pub fn expected_classes(kind: Kind) -> Vec<Class> {
    let mut wanted = vec![Class::Accepted, Class::Refused(5), Class::Refused(7)];
    match kind {
        Kind::PidWithReset => wanted.push(Class::Nan),
        _ => wanted.extend([Class::True, Class::False]),
    }
    if kind != Kind::TrueFalseHold {
        wanted.push(Class::Wiping);
    }
    wanted
}

/// Compares so many histories; each that differs is one difference.
#[must_use]
pub fn compare(kind: Kind, histories: u64, seed: u64) -> Tally {
    let mut r = Rng::new(seed, 300 + kind as u64);
    let mut tally = Tally::default();
    for _ in 0..histories {
        let mut past = begin(&mut r, kind);
        let parted = past.parted();
        let differs = parted.or_else(|| (0..CALLS).find_map(|_| past.call(&mut r, &mut tally)));
        tally.differences.extend(differs);
    }
    tally
}

/// Two regions and the ticks since the latest wiping one.
struct Past {
    kind: Kind,
    settings: Vec<u64>,
    oracle: Oracle,
    regions: [Vec<u64>; 2],
    history: Vec<Tick>,
}

/// Two regions of any words after the same wiping tick, which both accept.
fn begin(r: &mut Rng, kind: Kind) -> Past {
    let mut settings = inputs::accepted_settings(r, kind);
    if kind == Kind::PidWithReset {
        settings[0] = 1;
    }
    let oracle = Oracle::new(kind, &settings);
    loop {
        let mut regions = [0; 2].map(|_| region(r, kind, &settings, &oracle));
        let time = inputs::tick_time(r, kind, &settings, &regions[0]);
        let tick = Tick {
            time: f64::from_bits(time),
            inputs: wiping_inputs(r, kind),
        };
        let refused = |w: &Vec<u64>| model::refusal(kind, &settings, w, Some(time)) != 0;
        if regions.iter().any(refused) {
            continue;
        }
        for w in &mut regions {
            oracle.update(tick.time, &tick.inputs, w);
        }
        return Past {
            kind,
            settings,
            oracle,
            regions,
            history: vec![tick],
        };
    }
}

/// A region of any words whose stored trigger or reset is zero; for `TrueFalseHold` a fresh one.
fn region(r: &mut Rng, kind: Kind, s: &[u64], oracle: &Oracle) -> Vec<u64> {
    let mut w = inputs::region(r, kind, s);
    if kind == Kind::TrueFalseHold || w.len() != oracle.state_length() {
        w = oracle.started();
    }
    match kind {
        Kind::PidWithReset => w[2] = 0,
        Kind::TimerAccumulating => w[3] = 0,
        _ => {}
    }
    w
}

fn wiping_inputs(r: &mut Rng, kind: Kind) -> [u64; 3] {
    let mut inputs = inputs::tick_inputs(r, kind);
    match kind {
        Kind::PidWithReset => inputs[2] = 1,
        Kind::TimerAccumulating | Kind::TrueHoldWithReset => inputs[1] = 1,
        Kind::TrueDelay => inputs[0] = 0,
        _ => {}
    }
    inputs
}

impl Past {
    fn differs(&self, what: &str) -> Option<String> {
        let (settings, history) = (hex(&self.settings), &self.history);
        Some(format!("{what}: settings {settings} history {history:X?}"))
    }

    /// Whether the two regions differ, or the integrator from its account.
    fn parted(&self) -> Option<String> {
        let [one, other] = &self.regions;
        if one != other {
            return self.differs("the regions part");
        }
        let controller = self.kind == Kind::PidWithReset;
        if controller && one[0] != word_of(integrator(&self.settings, &self.history)) {
            return self.differs("the integrator is another");
        }
        None
    }

    /// One call to both regions: refused, an emit alone, or an emit and an update.
    fn call(&mut self, r: &mut Rng, tally: &mut Tally) -> Option<String> {
        let (kind, s) = (self.kind, &self.settings);
        let time = inputs::tick_time(r, kind, s, &self.regions[0]);
        let tick = Tick {
            time: f64::from_bits(time),
            inputs: inputs::tick_inputs(r, kind),
        };
        let refusal = |w: &Vec<u64>| model::refusal(kind, s, w, Some(time));
        let [number, other] = self.regions.each_ref().map(refusal);
        if number != other {
            return self.differs(&format!("{number} and {other} at {tick:X?}"));
        }
        if number != 0 {
            tally.see(Class::Refused(number));
            return None;
        }
        tally.see(Class::Accepted);
        self.emit(&tick, tally).or_else(|| {
            if r.one_in(4) {
                None
            } else {
                self.update(tick, tally)
            }
        })
    }

    /// The history with this tick as the next.
    fn with(&self, tick: &Tick) -> Vec<Tick> {
        [self.history.as_slice(), &[*tick]].concat()
    }

    fn wipes(&self, tick: &Tick) -> bool {
        let last = self.history.last().expect("a history has a tick");
        wipes(self.kind, last, tick)
    }

    fn emit(&self, tick: &Tick, tally: &mut Tally) -> Option<String> {
        let emit = |w: &Vec<u64>| self.oracle.emit(tick.time, &tick.inputs, w);
        let [one, other] = self.regions.each_ref().map(emit);
        let due = if self.wipes(tick) && self.kind != Kind::PidWithReset {
            answer(self.kind, &self.settings, &[*tick])
        } else {
            answer(self.kind, &self.settings, &self.with(tick))
        };
        tally.see_outputs(self.kind, &one);
        if one != other || one != due {
            let emits = format!("{one:X?} and {other:X?}, due {due:X?}");
            return self.differs(&format!("{emits} at {tick:X?}"));
        }
        None
    }

    fn update(&mut self, tick: Tick, tally: &mut Tally) -> Option<String> {
        for w in &mut self.regions {
            self.oracle.update(tick.time, &tick.inputs, w);
        }
        if self.wipes(&tick) {
            tally.see(Class::Wiping);
            self.history.clear();
        }
        self.history.push(tick);
        self.parted()
    }
}
