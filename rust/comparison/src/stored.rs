//! A stored call: what was asked of a block and what the Rust answered, as a line of words.
//!
//! A line holds, each as 16 hex digits: the settings, the time, the inputs, the region's length and
//! words; then the emit's refusal, real and boolean, the update's refusal and warning, and the
//! region's words after it. The many words of a moving average are given as a number of pairs and
//! the pairs (place, word): before the call the words that are not 0, after it those that changed.
use crate::oracle::Oracle;
use crate::{Answer, Calls, Kind, hex, model};

pub struct Stored {
    kind: Kind,
    settings: Vec<u64>,
    time: u64,
    inputs: Vec<u64>,
    before: Vec<u64>,
    emitted: Answer,
    updated: Answer,
    after: Vec<u64>,
}

/// The stored calls of a block.
///
/// # Panics
/// If they are not stored, or a line is not a call.
#[must_use]
pub fn stored(kind: Kind) -> Vec<Stored> {
    let folder = concat!(env!("CARGO_MANIFEST_DIR"), "/../../crates/replay/data");
    let path = format!("{folder}/{}.txt", kind.name());
    let list = std::fs::read_to_string(path).expect("the list is stored");
    let parse = |line| Stored::parse(kind, line).expect("a stored call");
    list.lines().map(parse).collect()
}

impl Stored {
    /// The call with the Rust's answers, or with document 01's refusal.
    #[must_use]
    pub fn ask(kind: Kind, settings: &[u64], time: u64, inputs: &[u64], before: &[u64]) -> Stored {
        let number = model::refusal(kind, settings, before, Some(time));
        let mut stored = Stored {
            kind,
            settings: settings.to_vec(),
            time,
            inputs: inputs[..kind.inputs().len()].to_vec(),
            before: before.to_vec(),
            emitted: Answer::refused(number),
            updated: Answer::refused(number),
            after: before.to_vec(),
        };
        if number == 0 {
            let oracle = Oracle::new(kind, settings);
            let t = f64::from_bits(time);
            stored.emitted = oracle.emit(t, inputs, before);
            stored.updated = oracle.update(t, inputs, &mut stored.after);
        }
        stored
    }

    #[must_use]
    pub fn line(&self) -> String {
        hex(&self.words())
    }

    /// The words of its line.
    #[must_use]
    pub fn words(&self) -> Vec<u64> {
        let (emitted, updated) = (&self.emitted, &self.updated);
        let zeros = vec![0; self.before.len()];
        let parts = [
            self.settings.clone(),
            vec![self.time],
            self.inputs.clone(),
            vec![self.before.len() as u64],
            self.region(&zeros, &self.before),
            vec![emitted.refusal, emitted.real, emitted.boolean.into()],
            vec![updated.refusal, updated.warning.into()],
            self.region(&self.before, &self.after),
        ];
        parts.concat()
    }

    /// The words of a region: all, or for a moving average those that are not as in `base`.
    fn region(&self, base: &[u64], region: &[u64]) -> Vec<u64> {
        if self.kind != Kind::MovingAverage {
            return region.to_vec();
        }
        let changed = (0..region.len()).filter(|&n| region[n] != base[n]);
        let pairs: Vec<u64> = changed.flat_map(|n| [n as u64, region[n]]).collect();
        [vec![pairs.len() as u64 / 2], pairs].concat()
    }

    /// Reads a line back; none if it is not one.
    #[must_use]
    pub fn parse(kind: Kind, line: &str) -> Option<Stored> {
        let words: Result<Vec<u64>, _> = line
            .split(' ')
            .map(|word| u64::from_str_radix(word, 16))
            .collect();
        let words = &mut words.ok()?.into_iter();
        let settings = take(words, kind.settings().len())?;
        let time = words.next()?;
        let inputs = take(words, kind.inputs().len())?;
        let zeros = vec![0; words.next()? as usize];
        let before = take_region(words, kind, &zeros)?;
        let emitted = Answer {
            refusal: words.next()?,
            real: words.next()?,
            boolean: words.next()? != 0,
            warning: false,
        };
        let updated = Answer {
            refusal: words.next()?,
            warning: words.next()? != 0,
            ..Answer::default()
        };
        let after = take_region(words, kind, &before)?;
        let stored = Stored {
            kind,
            settings,
            time,
            inputs,
            before,
            emitted,
            updated,
            after,
        };
        words.next().is_none().then_some(stored)
    }

    /// Whether the subject answers and writes as stored, to the bit.
    #[must_use]
    pub fn replay(&self, subject: &Calls) -> bool {
        let (kind, s, time) = (self.kind, &self.settings, self.time);
        let mut inputs = self.inputs.clone();
        inputs.resize(3, 1); // a word that the block does not have, and must not hear
        let mut region = self.before.clone();
        (subject.emit)(kind, s, time, &inputs, &region) == self.emitted
            && (subject.update)(kind, s, time, &inputs, &mut region) == self.updated
            && region == self.after
    }
}

fn take(words: &mut impl Iterator<Item = u64>, count: usize) -> Option<Vec<u64>> {
    let taken: Vec<u64> = words.take(count).collect();
    (taken.len() == count).then_some(taken)
}

/// The words of a region: all, or for a moving average `base` with the pairs put in.
fn take_region(
    words: &mut impl Iterator<Item = u64>,
    kind: Kind,
    base: &[u64],
) -> Option<Vec<u64>> {
    if kind != Kind::MovingAverage {
        return take(words, base.len());
    }
    let mut region = base.to_vec();
    for _ in 0..words.next()? {
        let place = words.next()? as usize;
        *region.get_mut(place)? = words.next()?;
    }
    Some(region)
}
