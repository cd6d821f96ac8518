//! One call of a sheet with all that it is lent, and what it gives and leaves.
use crate::sheet::{ROW_WORDS, SheetAnswer, SheetCalls, Tick};
use crate::{Calls, hex};

use super::singly;

/// A tick of a sheet, or a start if it has no tick. The rows are words; a start has no answers.
#[derive(Clone, Debug, PartialEq, Eq)]
pub struct Call {
    pub rows: Vec<u64>,
    pub tick: Option<Tick>,
    pub region: Vec<u64>,
    pub answers: Vec<u64>,
}

/// What a call gives, and the words that it leaves.
#[derive(Clone, Debug, PartialEq, Eq)]
pub struct Left {
    pub answer: SheetAnswer,
    pub region: Vec<u64>,
    pub answers: Vec<u64>,
}

impl Call {
    /// What the call gives and leaves, made by these calls.
    #[must_use]
    pub fn made(&self, calls: &SheetCalls) -> Left {
        self.left(|region, answers| match &self.tick {
            Some(tick) => (calls.tick)(&self.rows, tick, region, answers),
            None => (calls.start)(&self.rows, region),
        })
    }

    /// The same, by the calls of single blocks.
    #[must_use]
    pub fn made_singly(&self, blocks: &Calls) -> Left {
        self.left(|region, answers| match &self.tick {
            Some(tick) => singly::tick(blocks, &self.rows, tick, region, answers),
            None => singly::start(blocks, &self.rows, region),
        })
    }

    fn left(&self, call: impl FnOnce(&mut [u64], &mut [u64]) -> SheetAnswer) -> Left {
        let (mut region, mut answers) = (self.region.clone(), self.answers.clone());
        let answer = call(&mut region, &mut answers);
        Left {
            answer,
            region,
            answers,
        }
    }

    /// What a refusal of this number and row leaves: the words as they were.
    #[must_use]
    pub fn refused(&self, refusal: u64, row: usize) -> Left {
        self.left(|_, _| SheetAnswer::refused(refusal, row))
    }

    /// The whole call, a line for each row.
    #[must_use]
    pub fn text(&self) -> String {
        let rows = self
            .rows
            .chunks(ROW_WORDS)
            .map(|row| "\n  row ".to_owned() + &hex(row));
        let rows: String = rows.collect();
        let asked = match &self.tick {
            None => "start".into(),
            Some(t) => format!("tick\n  time {:016X}\n  words {}", t.time, hex(&t.words)),
        };
        let (region, answers) = (runs(&self.region), runs(&self.answers));
        format!("{asked}{rows}\n  region {region}\n  answers {answers}")
    }
}

impl Left {
    /// How it differs from what is due, if it does.
    #[must_use]
    pub fn difference(&self, due: &Left) -> Option<String> {
        if self.answer != due.answer {
            return Some(format!("got {:?}, due {:?}", self.answer, due.answer));
        }
        let region = word_difference("region", &self.region, &due.region);
        region.or_else(|| word_difference("answers", &self.answers, &due.answers))
    }
}

/// The first word that differs. The lists are as long as each other.
fn word_difference(name: &str, got: &[u64], due: &[u64]) -> Option<String> {
    if got == due {
        return None; // fast, and a region may be long
    }
    let n = (0..due.len()).find(|&n| got[n] != due[n])?;
    let (got, due) = (got[n], due[n]);
    Some(format!("{name}, word {n}: got {got:016X}, due {due:016X}"))
}

/// All words; equal ones that follow each other stand once, with their number.
fn runs(words: &[u64]) -> String {
    let run = |run: &[u64]| match run.len() {
        1..=3 => hex(run),
        n => format!("{:016X} x {n}", run[0]),
    };
    let runs: Vec<String> = words.chunk_by(|a, b| a == b).map(run).collect();
    format!("{} words: {}", words.len(), runs.join(" "))
}
