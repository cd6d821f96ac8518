//! What a comparison met and found. One that did not meet what it should has failed.
use std::collections::BTreeMap;
use std::fmt::Debug;

use crate::lengths::Off;
use crate::pulse_classes::{self, PulseClass};
use crate::ring_classes::{self, RingClass};
use crate::sound_classes::{self, SoundClass};
use crate::{Answer, Kind};

/// A sort of call, answer or effect.
#[derive(Clone, Copy, Debug, PartialEq, Eq, PartialOrd, Ord)]
pub enum Class {
    Accepted,
    Refused(u64),
    Start,
    /// A region that was taken apart, by its refusal.
    Decoded(u64),
    /// Many ticks in one call.
    Run,
    /// A run that is refused as a whole, by this number.
    RunRefused(u64),
    /// A region refused for its length: how far it is off.
    Length(Off),
    /// A boolean setting in an accepted call.
    BooleanSetting(Word),
    /// A gap of -0.0 added to a stored -0.0: the sum is one too.
    MinusZeroSum,
    FirstTick,
    True,
    False,
    Nan,
    /// A tick that wipes the past, as demand 3 has it.
    Wiping,
    Warning,
    Pruned,
    Appended,
    Overwritten,
    /// What a moving average's window and ring met.
    Ring(RingClass),
    /// What a variable pulse met.
    Pulse(PulseClass),
    /// What decides whether a moving average's ring is sound.
    Sound(SoundClass),
    /// A ring of which the published validator says whether its times are in order.
    Validated(bool),
    /// An accepted tick on a sound ring, which it leaves sound.
    KeptSound,
    /// An accepted tick on a ring that is not sound, and is after it.
    Mended,
    /// An accepted tick on a ring that is not sound, and is not after it.
    StaysUnsound,
    /// A gap from a set previous time that is infinite.
    InfiniteGap,
    /// A controller of this type, as its setting counts them.
    Type(u64),
    /// Equal inputs of a controller whose direction is -1: an error of -0.0.
    EqualInputs,
    /// Limits with y_min > y_max.
    CrossedLimits,
    /// A setting that is a zero; true: -0.0.
    ZeroSetting(bool),
    /// A first tick on an integrator that is a zero; true: -0.0.
    ZeroStart(bool),
    /// A first tick whose yD is a yd_start other than a zero.
    DerivativeStart,
    /// A first tick with k * td below 1e-15.
    TinyGain,
    /// A rising trigger with a y_reset that is a zero; true: -0.0.
    ZeroReset(bool),
    /// A rising trigger on an integrator that is a NaN.
    NanReset,
}

/// A word that is read as a boolean.
#[derive(Clone, Copy, Debug, PartialEq, Eq, PartialOrd, Ord)]
pub enum Word {
    Zero,
    One,
    /// Even, but not 0: true all the same.
    Even,
    /// Odd, but not 1.
    Odd,
}

impl Word {
    pub const ALL: [Word; 4] = [Word::Zero, Word::One, Word::Even, Word::Odd];

    #[must_use]
    pub fn of(word: u64) -> Word {
        match word {
            0 => Word::Zero,
            1 => Word::One,
            _ if word % 2 == 0 => Word::Even,
            _ => Word::Odd,
        }
    }

    /// What the boolean settings of a block are.
    pub fn settings(kind: Kind, s: &[u64]) -> impl Iterator<Item = Word> {
        let items = kind.settings().bytes().zip(s);
        let booleans = items.filter(|(item, _)| *item == b'b');
        booleans.map(|(_, word)| Word::of(*word))
    }
}

use Class::*;

/// How often each class occurred, and the differences found.
pub struct Tally<C = Class> {
    seen: BTreeMap<C, u64>,
    pub differences: Vec<String>,
}

impl<C> Default for Tally<C> {
    fn default() -> Tally<C> {
        Tally {
            seen: BTreeMap::new(),
            differences: vec![],
        }
    }
}

impl<C: Copy + Debug + Ord> Tally<C> {
    pub fn see(&mut self, class: C) {
        *self.seen.entry(class).or_default() += 1;
    }

    pub fn see_all(&mut self, classes: &[C]) {
        classes.iter().for_each(|class| self.see(*class));
    }

    #[must_use]
    pub fn count(&self, class: C) -> u64 {
        self.seen.get(&class).copied().unwrap_or(0)
    }

    /// Of these classes, those that did not occur.
    #[must_use]
    pub fn missing(&self, wanted: &[C]) -> Vec<C> {
        let absent = |class: &&C| self.count(**class) == 0;
        wanted.iter().filter(absent).copied().collect()
    }

    /// The counts in one line.
    #[must_use]
    pub fn counts(&self) -> String {
        let seen = self.seen.iter();
        let counts: Vec<String> = seen.map(|(c, n)| format!("{c:?} {n}")).collect();
        counts.join(", ")
    }

    /// Prints the differences and the classes that are missing; says whether there are none.
    pub fn report(&self, name: &str, wanted: &[C]) -> bool {
        for difference in &self.differences {
            println!("{name} DIFFERS: {difference}");
        }
        let missing = self.missing(wanted);
        if !missing.is_empty() {
            println!("{name} NEVER MET: {missing:?}");
        }
        self.differences.is_empty() && missing.is_empty()
    }
}

impl Tally {
    /// Calls of emit and update, accepted or refused.
    #[must_use]
    pub fn calls(&self) -> u64 {
        self.count(Accepted) + (1..=7).map(|n| self.count(Refused(n))).sum::<u64>()
    }

    /// The outputs of an emit.
    pub fn see_outputs(&mut self, kind: Kind, answer: &Answer) {
        if kind.outputs().contains('b') {
            self.see(if answer.boolean { True } else { False });
        }
        if f64::from_bits(answer.real).is_nan() {
            self.see(Nan);
        }
    }

    /// The counts in one line, the calls first.
    #[must_use]
    pub fn line(&self) -> String {
        format!("calls {}: {}", self.calls(), self.counts())
    }
}

/// The classes that are met.
pub(crate) fn met<C, const N: usize>(classes: [(C, bool); N]) -> impl Iterator<Item = C> {
    let met = classes.into_iter().filter(|(_, is_met)| *is_met);
    met.map(|(class, _)| class)
}

/// What a comparison of this block call by call must meet.
#[must_use]
pub fn expected_classes(kind: Kind) -> Vec<Class> {
    let mut wanted = vec![Accepted, Start, FirstTick, InfiniteGap, MinusZeroSum, Run];
    wanted.extend([2, 3, 5, 6, 7].map(Refused));
    wanted.extend([2, 3].map(RunRefused));
    wanted.extend(Off::ALL.map(Length));
    wanted.extend([0, 2, 3, 6].map(Decoded));
    if kind.settings().contains('b') {
        wanted.extend(Word::ALL.map(BooleanSetting));
    }
    if kind.outputs().contains('b') {
        wanted.extend([True, False]);
    }
    if kind.outputs().contains('r') {
        wanted.push(Nan);
    }
    if kind.is_controller() {
        wanted.extend([0, 1, 2, 3].map(Type));
        wanted.extend([EqualInputs, CrossedLimits, DerivativeStart, TinyGain]);
        wanted.extend([false, true].map(ZeroSetting));
        wanted.extend([false, true].map(ZeroStart));
    }
    match kind {
        Kind::PidWithReset => wanted.extend([Wiping, NanReset, ZeroReset(false), ZeroReset(true)]),
        Kind::MovingAverage => {
            wanted.extend([Warning, Pruned, Appended, Overwritten]);
            wanted.extend(ring_classes::all().into_iter().map(Ring));
            wanted.extend(sound_classes::all().into_iter().map(Sound));
            wanted.extend([KeptSound, Mended, StaysUnsound]);
            wanted.extend([true, false].map(Validated));
        }
        Kind::LogicalVariablePulse => {
            wanted.extend(pulse_classes::all().into_iter().map(Pulse));
        }
        Kind::Pid | Kind::TrueFalseHold => {}
        _ => wanted.push(Wiping),
    }
    wanted
}
