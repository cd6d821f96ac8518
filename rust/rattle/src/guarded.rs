//! The boundary's calls with all that is lent between guard words. These must stay, and so must what is lent to be read.
use std::hint::black_box;
use std::ops::Range;

use crate::boundary::{self, AnswerWords, LengthWords, SheetWords, StateWords, Tick};

/// Words around what is lent.
const GUARD: [u64; 8] = [0x5EED_0F60_4A4D_5EED; 8];

/// A copy of the words between guard words, and where they stand in it.
fn lent(words: &[u64]) -> (Vec<u64>, Range<usize>) {
    let buffer = [&GUARD, words, &GUARD].concat();
    (buffer, GUARD.len()..GUARD.len() + words.len())
}

fn guards_stay(buffer: &[u64]) {
    let stay = buffer.starts_with(&GUARD) && buffer.ends_with(&GUARD);
    assert!(stay, "a guard word changed");
}

/// A call that writes the words.
fn writing<T>(words: &mut [u64], call: impl FnOnce(&mut [u64]) -> T) -> T {
    let (mut buffer, inner) = lent(words);
    let answer = call(&mut buffer[inner.clone()]);
    guards_stay(&buffer);
    words.copy_from_slice(&buffer[inner]);
    answer
}

/// A call that only reads the words: they must stay too. Of what it was lent nothing is taken for granted.
fn reading<T>(words: &[u64], call: impl FnOnce(&[u64]) -> T) -> T {
    let (buffer, inner) = lent(words);
    let answer = call(&buffer[inner.clone()]);
    let buffer = black_box(buffer);
    guards_stay(&buffer);
    assert!(
        buffer[inner] == *words,
        "words that are only read have changed"
    );
    answer
}

#[must_use]
pub fn length(block: u64, s: &[u64]) -> LengthWords {
    reading(s, |s| boundary::length(block, s))
}

#[must_use]
pub fn start(block: u64, s: &[u64], w: &mut [u64]) -> u64 {
    reading(s, |s| writing(w, |w| boundary::start(block, s, w)))
}

#[must_use]
pub fn emit(block: u64, s: &[u64], tick: Tick, w: &[u64]) -> AnswerWords {
    reading(s, |s| reading(w, |w| boundary::emit(block, s, tick, w)))
}

#[must_use]
pub fn update(block: u64, s: &[u64], tick: Tick, w: &mut [u64]) -> AnswerWords {
    reading(s, |s| writing(w, |w| boundary::update(block, s, tick, w)))
}

#[must_use]
pub fn tick(block: u64, s: &[u64], tick: Tick, w: &mut [u64]) -> AnswerWords {
    reading(s, |s| writing(w, |w| boundary::tick(block, s, tick, w)))
}

#[must_use]
pub fn sound(block: u64, s: &[u64], w: &[u64]) -> u64 {
    reading(s, |s| reading(w, |w| boundary::sound(block, s, w)))
}

#[must_use]
pub fn decode(block: u64, s: &[u64], w: &[u64]) -> StateWords {
    reading(s, |s| reading(w, |w| boundary::decode(block, s, w)))
}

#[must_use]
pub fn run(block: u64, s: &[u64], ticks: &[u64], w: &mut [u64], answers: &mut [u64]) -> u64 {
    let mut write = |s: &[u64], ticks: &[u64]| {
        writing(w, |w| {
            writing(answers, |answers| {
                boundary::run(block, s, ticks, w, answers)
            })
        })
    };
    reading(s, |s| reading(ticks, |ticks| write(s, ticks)))
}

#[must_use]
pub fn sheet_start(rows: &[u64], w: &mut [u64]) -> SheetWords {
    reading(rows, |rows| writing(w, |w| boundary::sheet_start(rows, w)))
}

#[must_use]
pub fn sheet_tick(
    rows: &[u64],
    time: u64,
    words: &[u64; 8],
    w: &mut [u64],
    answers: &mut [u64],
) -> SheetWords {
    let mut write = |rows: &[u64], words: &[u64; 8]| {
        writing(w, |w| {
            writing(answers, |answers| {
                boundary::sheet_tick(rows, time, words, w, answers)
            })
        })
    };
    reading(rows, |rows| {
        reading(words, |words| {
            write(rows, words.try_into().expect("eight words"))
        })
    })
}

#[cfg(test)]
mod tests {
    use super::*;

    /// Whether a write at this place of what surrounds two words is seen.
    fn is_seen(place: usize) -> bool {
        let (mut buffer, _) = lent(&[1, 2]);
        buffer[place] ^= 1;
        std::panic::catch_unwind(|| guards_stay(&buffer)).is_err()
    }

    #[test]
    fn a_write_around_the_words_is_seen() {
        let (buffer, inner) = lent(&[1, 2]);
        for place in 0..buffer.len() {
            assert_eq!(is_seen(place), !inner.contains(&place), "{place}");
        }
    }
}
