//! The boundary as include/oven.h has it, each function a safe one over slices. A block goes by its number, and all else
//! as words: a real as its bits, a boolean as 0 or 1.
use comparison::TickWords;

/// What a tick answers.
#[derive(Clone, Copy, Debug, PartialEq, Eq, Default)]
#[repr(C)]
pub struct AnswerWords {
    pub refusal: u64,
    pub real: u64,
    pub boolean: u64,
    pub warning: u64,
}

/// How many words a region has.
#[derive(Clone, Copy, Debug, PartialEq, Eq, Default)]
#[repr(C)]
pub struct LengthWords {
    pub refusal: u64,
    pub length: u64,
}

/// A region taken apart.
#[derive(Clone, Copy, Debug, PartialEq, Eq, Default)]
#[repr(C)]
pub struct StateWords {
    pub refusal: u64,
    pub words: [u64; 6],
}

/// What a sheet answers.
#[derive(Clone, Copy, Debug, PartialEq, Eq, Default)]
#[repr(C)]
pub struct SheetWords {
    pub refusal: u64,
    pub row: u64,
    pub warning: u64,
}

#[rustfmt::skip]
unsafe extern "C" {
    fn oven_length(block: u64, s: *const u64, ns: usize) -> LengthWords;
    fn oven_start(block: u64, s: *const u64, ns: usize, w: *mut u64, nw: usize) -> u64;
    fn oven_emit(block: u64, s: *const u64, ns: usize, time: u64, first: u64, second: u64, third: u64, w: *const u64, nw: usize) -> AnswerWords;
    fn oven_update(block: u64, s: *const u64, ns: usize, time: u64, first: u64, second: u64, third: u64, w: *mut u64, nw: usize) -> AnswerWords;
    fn oven_tick(block: u64, s: *const u64, ns: usize, time: u64, first: u64, second: u64, third: u64, w: *mut u64, nw: usize) -> AnswerWords;
    fn oven_sound(block: u64, s: *const u64, ns: usize, w: *const u64, nw: usize) -> u64;
    fn oven_decode(block: u64, s: *const u64, ns: usize, w: *const u64, nw: usize) -> StateWords;
    fn oven_run(block: u64, s: *const u64, ns: usize, ticks: *const u64, nt: usize, w: *mut u64, nw: usize, answers: *mut u64, na: usize) -> u64;
    fn oven_sheet_start(rows: *const u64, nr: usize, w: *mut u64, nw: usize) -> SheetWords;
    fn oven_sheet_tick(rows: *const u64, nr: usize, time: u64, words: *const u64, w: *mut u64, nw: usize, answers: *mut u64, na: usize) -> SheetWords;
}

/// A tick's time and its three inputs.
pub type Tick = TickWords;

/// Words of an answer in a run.
pub const ANSWER_WORDS: usize = size_of::<AnswerWords>() / size_of::<u64>();

#[rustfmt::skip]
type Writing = unsafe extern "C" fn(u64, *const u64, usize, u64, u64, u64, u64, *mut u64, usize) -> AnswerWords;

// SAFETY of all: what is lent are slices that live through the call, read or written as their types say, and no two that
// are written overlap.

/// How many words a region of these settings has.
#[inline]
#[must_use]
pub fn length(block: u64, s: &[u64]) -> LengthWords {
    unsafe { oven_length(block, s.as_ptr(), s.len()) }
}

/// Writes the words of a fresh start; the refusal.
#[inline]
#[must_use]
pub fn start(block: u64, s: &[u64], w: &mut [u64]) -> u64 {
    unsafe { oven_start(block, s.as_ptr(), s.len(), w.as_mut_ptr(), w.len()) }
}

/// The outputs as of this tick.
#[inline]
#[must_use]
pub fn emit(block: u64, s: &[u64], tick: Tick, w: &[u64]) -> AnswerWords {
    let [time, first, second, third] = tick;
    let (ps, ns, pw, nw) = (s.as_ptr(), s.len(), w.as_ptr(), w.len());
    unsafe { oven_emit(block, ps, ns, time, first, second, third, pw, nw) }
}

/// Stores this tick.
#[inline]
#[must_use]
pub fn update(block: u64, s: &[u64], tick: Tick, w: &mut [u64]) -> AnswerWords {
    writing(oven_update, block, s, tick, w)
}

/// A whole tick: an emit, then an update.
#[inline]
#[must_use]
pub fn tick(block: u64, s: &[u64], tick: Tick, w: &mut [u64]) -> AnswerWords {
    writing(oven_tick, block, s, tick, w)
}

#[inline]
fn writing(call: Writing, block: u64, s: &[u64], tick: Tick, w: &mut [u64]) -> AnswerWords {
    let [time, first, second, third] = tick;
    let (ps, ns, pw, nw) = (s.as_ptr(), s.len(), w.as_mut_ptr(), w.len());
    unsafe { call(block, ps, ns, time, first, second, third, pw, nw) }
}

/// 1 if the region is sound, else 0.
#[inline]
#[must_use]
pub fn sound(block: u64, s: &[u64], w: &[u64]) -> u64 {
    unsafe { oven_sound(block, s.as_ptr(), s.len(), w.as_ptr(), w.len()) }
}

/// The region taken apart.
#[inline]
#[must_use]
pub fn decode(block: u64, s: &[u64], w: &[u64]) -> StateWords {
    unsafe { oven_decode(block, s.as_ptr(), s.len(), w.as_ptr(), w.len()) }
}

/// Whole ticks, `TICK_WORDS` each, and for each `ANSWER_WORDS` of answers; the refusal of the call.
#[inline]
#[must_use]
pub fn run(block: u64, s: &[u64], ticks: &[u64], w: &mut [u64], answers: &mut [u64]) -> u64 {
    let (ps, ns, pt, nt) = (s.as_ptr(), s.len(), ticks.as_ptr(), ticks.len());
    let (pw, nw, pa, na) = (w.as_mut_ptr(), w.len(), answers.as_mut_ptr(), answers.len());
    unsafe { oven_run(block, ps, ns, pt, nt, pw, nw, pa, na) }
}

/// Writes the words of a fresh start to each row's stretch.
#[inline]
#[must_use]
pub fn sheet_start(rows: &[u64], w: &mut [u64]) -> SheetWords {
    unsafe { oven_sheet_start(rows.as_ptr(), rows.len(), w.as_mut_ptr(), w.len()) }
}

/// The column by which a row takes a word that a row further up answers in the same tick: its output, word 0, or its second, 1.
#[inline]
#[must_use]
pub const fn answer_column(row: u64, word: u64) -> u64 {
    8 + 2 * row + word
}

/// A tick of all rows with eight input words, and two words of answers for each row, which the rows further down may read.
#[inline]
#[must_use]
pub fn sheet_tick(
    rows: &[u64],
    time: u64,
    words: &[u64; 8],
    w: &mut [u64],
    answers: &mut [u64],
) -> SheetWords {
    let (pr, nr, pi) = (rows.as_ptr(), rows.len(), words.as_ptr());
    let (pw, nw, pa, na) = (w.as_mut_ptr(), w.len(), answers.as_mut_ptr(), answers.len());
    unsafe { oven_sheet_tick(pr, nr, time, pi, pw, nw, pa, na) }
}
