//! The proved blocks as the comparison calls them.
use comparison::sheet::{SheetAnswer, SheetCalls};
use comparison::{Answer, Calls, Decoded, Kind, model};

use crate::boundary::{ANSWER_WORDS, AnswerWords, SheetWords, Tick};
use crate::guarded;

/// The proved calls, to be compared with the Rust.
pub const CALLS: Calls = Calls {
    state_length: |kind, s| {
        let words = guarded::length(kind as u64, s);
        (words.refusal, words.length as usize)
    },
    start: |kind, s, w| guarded::start(kind as u64, s, w),
    emit: |kind, s, time, v, w| answer(guarded::emit(kind as u64, s, tick(time, v), w)),
    update: |kind, s, time, v, w| answer(guarded::update(kind as u64, s, tick(time, v), w)),
    tick: |kind, s, time, v, w| answer(guarded::tick(kind as u64, s, tick(time, v), w)),
    run: |kind, s, ticks, w| {
        let mut answers = vec![[UNWRITTEN; ANSWER_WORDS]; ticks.len()];
        let words = answers.as_flattened_mut();
        let refused = guarded::run(kind as u64, s, ticks.as_flattened(), w, words);
        if refused != 0 {
            let stay = words.iter().all(|word| *word == UNWRITTEN);
            assert!(stay, "a run that is refused has written answers");
            return Err(refused);
        }
        Ok(answers.into_iter().map(answer_words).map(answer).collect())
    },
    sound: |kind, s, w| flag(guarded::sound(kind as u64, s, w)),
    decode: |kind, s, w| {
        let state = guarded::decode(kind as u64, s, w);
        Decoded {
            refusal: state.refusal,
            words: state.words,
        }
    },
};

/// The proved sheet, to be compared with the model and with the proved blocks.
pub const SHEETS: SheetCalls = SheetCalls {
    start: |rows, w| sheet_answer(guarded::sheet_start(rows, w)),
    tick: |rows, tick, w, a| sheet_answer(guarded::sheet_tick(rows, tick.time, &tick.words, w, a)),
};

/// Start, tick and run are the proved ones, and the rest the model's: liboven.a has no more.
pub const OVEN_CALLS: Calls = Calls {
    start: CALLS.start,
    tick: CALLS.tick,
    run: CALLS.run,
    ..model::CALLS
};

/// What the answers' words are before a run: as a refusal or a boolean it is none.
const UNWRITTEN: u64 = 0xBAD0_BAD0_BAD0_BAD0;

/// A tick's time and its inputs.
fn tick(time: u64, inputs: &[u64]) -> Tick {
    let [first, second, third] = inputs.try_into().expect("three inputs");
    [time, first, second, third]
}

/// A boolean crosses as 0 or 1.
fn flag(word: u64) -> bool {
    assert!(word < 2, "a boolean that is neither 0 nor 1");
    word == 1
}

/// An answer's words as the comparison has it.
#[must_use]
pub fn answer(words: AnswerWords) -> Answer {
    Answer {
        refusal: words.refusal,
        real: words.real,
        boolean: flag(words.boolean),
        warning: flag(words.warning),
    }
}

fn sheet_answer(words: SheetWords) -> SheetAnswer {
    SheetAnswer {
        refusal: words.refusal,
        row: words.row,
        warning: flag(words.warning),
    }
}

/// An answer of a run.
fn answer_words([refusal, real, boolean, warning]: [u64; ANSWER_WORDS]) -> AnswerWords {
    AnswerWords {
        refusal,
        real,
        boolean,
        warning,
    }
}

/// Whole ticks from a fresh start: what each answers, and the words that it leaves.
///
/// # Panics
/// If a call is refused.
#[must_use]
pub fn run(kind: Kind, settings: &[u64], ticks: &[(f64, [u64; 3])]) -> Vec<(Answer, Vec<u64>)> {
    let (_, length) = (CALLS.state_length)(kind, settings);
    let mut region = vec![0; length];
    assert_eq!((CALLS.start)(kind, settings, &mut region), 0);
    let tick = |(time, inputs): &(f64, [u64; 3])| {
        let answer = (CALLS.tick)(kind, settings, time.to_bits(), inputs, &mut region);
        assert_eq!(answer.refusal, 0);
        (answer, region.clone())
    };
    ticks.iter().map(tick).collect()
}
