//! Compares calls with the Rust, call by call, on generated settings, regions and ticks.
//!
//! The Rust refuses nothing: which number is due is document 01's, by the model, and so is whether a
//! region is sound. An accepted call must answer and write what the Rust does, and leave a sound region
//! sound; a refused one must answer zeros and write nothing.
//! The inputs depend on the seed alone, not on the calls that are compared.
use crate::effects::{decoded, effects, faults};
use crate::inputs::{self, Rng};
use crate::model::leaves::UNSET;
use crate::oracle::Oracle;
use crate::tally::{Class, Tally};
use crate::{Answer, Calls, Kind, TickWords, Update, hex, model};

/// Ticks in a run, and the emits and updates that they are.
const TICKS: u64 = 12;
pub const CALLS: u64 = 2 * TICKS;

/// A comparison ends after so many differences.
const ENOUGH: usize = 5;

/// Compares so many runs: settings, a region of any words, perhaps a start, then ticks.
#[must_use]
pub fn compare(subject: &Calls, kind: Kind, runs: u64, seed: u64) -> Tally {
    let mut r = Rng::new(seed, kind as u64);
    let mut tally = Tally::default();
    for _ in 0..runs {
        run(subject, kind, &mut r, &mut tally);
        if tally.differences.len() >= ENOUGH {
            break;
        }
    }
    tally
}

fn run(subject: &Calls, kind: Kind, r: &mut Rng, tally: &mut Tally) {
    let settings = inputs::wide::settings(r, kind);
    let (refused, _) = model::state_length(kind, &settings);
    let mut run = Run {
        subject,
        kind,
        oracle: (refused == 0).then(|| Oracle::new(kind, &settings)),
        region: inputs::wide::region(r, kind, &settings),
        settings,
        is_sound: false,
        time: 0,
        inputs: [0; 3],
        tally,
    };
    if !run.lengths_agree() {
        return;
    }
    if r.one_in(4) {
        run.start();
    }
    if r.one_in(64) {
        run.set_far_back();
    }
    run.decode();
    let before = run.region.clone();
    let (mut ticks, mut answers) = (vec![], vec![]);
    for _ in 0..TICKS {
        (run.time, run.inputs) = inputs::wide::tick(r, kind, &run.settings, &run.region);
        let emitted = run.emit();
        answers.push(run.update(emitted));
        let [first, second, third] = run.inputs;
        ticks.push([run.time, first, second, third]);
    }
    run.run(&ticks, before, &answers);
    run.decode();
}

/// One run as it stands: the Rust's words, and the tick that is due.
struct Run<'a> {
    subject: &'a Calls,
    kind: Kind,
    settings: Vec<u64>,
    /// None if the settings are refused.
    oracle: Option<Oracle>,
    region: Vec<u64>,
    /// Whether the region is sound, by the model.
    is_sound: bool,
    time: u64,
    inputs: [u64; 3],
    tally: &'a mut Tally,
}

impl Run<'_> {
    fn differs(&mut self, call: &str, what: String) {
        let few = &self.region[..self.region.len().min(24)];
        self.tally.differences.push(format!(
            "{call} of {:?}, settings {} time {:016X} inputs {} region {}: {what}",
            self.kind,
            hex(&self.settings),
            self.time,
            hex(&self.inputs),
            hex(few),
        ));
    }

    /// Notes two answers that are not the same.
    fn expect<T: PartialEq + std::fmt::Debug>(&mut self, call: &str, got: T, due: T) {
        if got != due {
            self.differs(call, format!("got {got:X?}, due {due:X?}"));
        }
    }

    /// Notes the first word of the region that is not as due.
    fn expect_words(&mut self, call: &str, got: &[u64], due: &[u64]) {
        if got == due {
            return; // fast, and a region may be long
        }
        if let Some(n) = (0..due.len()).find(|&n| got[n] != due[n]) {
            let what = format!("word {n}: got {:016X}, due {:016X}", got[n], due[n]);
            self.differs(call, what);
        }
    }

    /// The Rust's block, if the number is 0 and so it may be called.
    fn accepted(&self, refused: u64) -> Option<&Oracle> {
        self.oracle.as_ref().filter(|_| refused == 0)
    }

    fn lengths_agree(&mut self) -> bool {
        let got = (self.subject.state_length)(self.kind, &self.settings);
        let due = match &self.oracle {
            Some(oracle) => (0, oracle.state_length()),
            None => (2, 0),
        };
        self.expect("state length", got, due);
        got == due
    }

    /// The number that is due for settings and region alone: of a start and of a run.
    fn start_refusal(&self) -> u64 {
        match &self.oracle {
            None => 2,
            Some(oracle) if oracle.state_length() != self.region.len() => 3,
            Some(_) => 0,
        }
    }

    fn start(&mut self) {
        let mut mine = self.region.clone();
        let got = (self.subject.start)(self.kind, &self.settings, &mut mine);
        let due = self.start_refusal();
        let mut theirs = self.region.clone();
        if let Some(oracle) = self.accepted(due) {
            oracle.start(&mut theirs);
            self.tally.see(Class::Start);
        }
        self.expect("start", got, due);
        self.expect_words("start", &mine, &theirs);
        self.region = theirs;
        self.is_sound = due == 0;
        self.sound();
    }

    /// Puts the previous time so far back that the gap to a large time is infinite.
    fn set_far_back(&mut self) {
        let place = self.kind.time_place(&self.settings);
        if let Some(word) = place.and_then(|n| self.region.get_mut(n)) {
            *word = f64::MIN.to_bits();
        }
    }

    /// Sound is ours, as decoding: the Rust has neither. A region that must be sound by what came before it is sound.
    fn sound(&mut self) {
        let (kind, s, w) = (self.kind, &self.settings, &self.region);
        let got = (self.subject.sound)(kind, s, w);
        let must = self.is_sound;
        self.is_sound = model::sound(kind, s, w);
        self.expect("sound", got, must || self.is_sound);
        if let Some(in_order) = self.validated() {
            self.tally.see(Class::Validated(in_order));
            self.expect("sound, by the published validator", got, in_order);
        }
    }

    /// But the Rust has a validator of states that looks at the times of a ring too: what it says of those, in a region that decodes
    /// with a previous time.
    fn validated(&self) -> Option<bool> {
        let (kind, s, w) = (self.kind, &self.settings, &self.region);
        let decodes = kind == Kind::MovingAverage && model::refusal(kind, s, w, None) == 0;
        let oracle = self.oracle.as_ref()?;
        (decodes && w[2] != UNSET).then(|| oracle.times_in_order(w))?
    }

    fn decode(&mut self) {
        self.sound();
        let (kind, s, w) = (self.kind, &self.settings, &self.region);
        let got = (self.subject.decode)(kind, s, w);
        let due = model::decode(kind, s, w);
        self.tally.see_all(&decoded(kind, due.refusal, s, w));
        self.expect("decode", got, due);
    }

    /// After an accepted tick: a sound ring stays sound (document 02, request 2).
    fn stays_sound(&mut self) {
        let was_sound = self.is_sound;
        self.sound();
        self.tally.see(match (was_sound, self.is_sound) {
            (true, _) => Class::KeptSound,
            (false, true) => Class::Mended,
            (false, false) => Class::StaysUnsound,
        });
    }

    /// The number that is due at this tick.
    fn refusal(&self) -> u64 {
        model::refusal(self.kind, &self.settings, &self.region, Some(self.time))
    }

    fn see_call(&mut self, refused: u64) {
        self.tally.see(match refused {
            0 => Class::Accepted,
            n => Class::Refused(n),
        });
    }

    /// The answer that was due.
    fn emit(&mut self) -> Answer {
        let refused = self.refusal();
        let (s, v, w) = (&self.settings, &self.inputs, &self.region);
        let got = (self.subject.emit)(self.kind, s, self.time, v, w);
        let due = match self.accepted(refused) {
            Some(oracle) => oracle.emit(f64::from_bits(self.time), v, w),
            None => Answer::refused(refused),
        };
        self.see_call(refused);
        if refused == 0 {
            self.tally.see_outputs(self.kind, &due);
        }
        self.expect("emit", got, due);
        due
    }

    /// The update, and the whole tick: its answer is the emit's with the update's warning. That is what is handed back.
    fn update(&mut self, emitted: Answer) -> Answer {
        let refused = self.refusal();
        let mut theirs = self.region.clone();
        let (s, v) = (&self.settings, &self.inputs);
        let due = match self.accepted(refused) {
            Some(oracle) => oracle.update(f64::from_bits(self.time), v, &mut theirs),
            None => Answer::refused(refused),
        };
        let effects = match refused {
            0 => effects(self.kind, s, v, &self.region, &theirs),
            n => faults(self.kind, n, s, &self.region),
        };
        self.tally.see_all(&effects);
        if due.warning {
            self.tally.see(Class::Warning);
        }
        self.see_call(refused);
        let ticked = Answer {
            warning: due.warning,
            ..emitted
        };
        self.expect_call("update", self.subject.update, due, &theirs);
        self.expect_call("tick", self.subject.tick, ticked, &theirs);
        self.region = theirs;
        if refused == 0 && self.kind == Kind::MovingAverage {
            self.stays_sound();
        }
        ticked
    }

    /// The ticks that led from the region before to this one, once more and all in one call.
    fn run(&mut self, ticks: &[TickWords], before: Vec<u64>, answers: &[Answer]) {
        let theirs = std::mem::replace(&mut self.region, before);
        let mut mine = self.region.clone();
        let got = (self.subject.run)(self.kind, &self.settings, ticks, &mut mine);
        self.tally.see(Class::Run);
        let refused = self.start_refusal();
        let due = if refused == 0 {
            Ok(answers)
        } else {
            self.tally.see(Class::RunRefused(refused));
            Err(&refused)
        };
        self.expect("run", got.as_deref(), due);
        self.expect_words("run", &mine, &theirs);
        self.region = theirs;
    }

    /// Makes a call that writes, on a copy of the region, and notes how it differs.
    fn expect_call(&mut self, name: &str, call: Update, due: Answer, words: &[u64]) {
        let mut mine = self.region.clone();
        let (s, v) = (&self.settings, &self.inputs);
        let got = call(self.kind, s, self.time, v, &mut mine);
        self.expect(name, got, due);
        self.expect_words(name, &mine, words);
    }
}
