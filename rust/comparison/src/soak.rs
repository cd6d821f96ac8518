//! What the program `soak` of document 01 must write for a given input, over the ported Rust.
//! The refusals and the form of the lines are document 01's; the outputs are the Rust's.
use crate::oracle::Oracle;
use crate::{Answer, Kind, model};

/// The longest line, its end not counted.
const LONGEST: usize = 255;

/// The longest window that `soak` has room for, in seconds.
const LONGEST_DELTA: f64 = 1024.0;

/// A real: sixteen upper-case hex digits.
fn real(text: &[u8]) -> Option<u64> {
    let digit = |b: &u8| match b {
        b'0'..=b'9' => Some(u64::from(b - b'0')),
        b'A'..=b'F' => Some(u64::from(b - b'A' + 10)),
        _ => None,
    };
    let mut digits = text.iter().map(digit);
    (text.len() == 16)
        .then(|| digits.try_fold(0, |x, d| Some(x << 4 | d?)))
        .flatten()
}

/// One item: r real, b boolean, c controller type.
fn item(item: u8, text: &[u8]) -> Option<u64> {
    match (item, text) {
        (b'r', _) => real(text),
        (b'b', b"0") | (b'c', b"P") => Some(0),
        (b'b', b"1") | (b'c', b"PI") => Some(1),
        (b'c', b"PD") => Some(2),
        (b'c', b"PID") => Some(3),
        _ => None,
    }
}

/// The words of these texts, if they are exactly these items.
fn words(items: &str, texts: &[&[u8]]) -> Option<Vec<u64>> {
    let pairs = items.bytes().zip(texts);
    let words = pairs.map(|(kind, text)| item(kind, text));
    (items.len() == texts.len()).then(|| words.collect())?
}

/// What one space parts on a line that is not too long.
fn texts(line: &[u8]) -> Option<Vec<&[u8]>> {
    (line.len() <= LONGEST).then(|| line.split(|b| *b == b' ').collect())
}

/// The lines: a line feed ends one, and the last may lack it.
#[must_use]
pub fn lines(input: &[u8]) -> Vec<&[u8]> {
    let mut lines: Vec<&[u8]> = input.split(|b| *b == b'\n').collect();
    if lines.last().is_some_and(|line| line.is_empty()) {
        lines.pop();
    }
    lines
}

/// The block and its settings, whatever its state's length.
#[must_use]
pub fn block_line(line: &[u8]) -> Option<(Kind, Vec<u64>)> {
    let texts = texts(line)?;
    let (name, rest) = texts.split_first()?;
    let kind = Kind::named(std::str::from_utf8(name).ok()?)?;
    Some((kind, words(kind.settings(), rest)?))
}

/// The block and its settings, if `soak` has room for it.
fn first_line(line: &[u8]) -> Option<(Kind, Vec<u64>)> {
    let (kind, s) = block_line(line)?;
    let delta = f64::from_bits(s[0]);
    let too_long = kind == Kind::MovingAverage && delta.is_finite() && delta > LONGEST_DELTA;
    (!too_long).then_some((kind, s))
}

/// The time and the inputs of a later line.
#[must_use]
pub fn tick_line(kind: Kind, line: &[u8]) -> Option<(u64, Vec<u64>)> {
    let texts = texts(line)?;
    let (time, inputs) = texts.split_first()?;
    Some((real(time)?, words(kind.inputs(), inputs)?))
}

/// The outputs as they are written.
#[must_use]
pub fn outputs(kind: Kind, answer: &Answer) -> String {
    let output = |item| match item {
        b'r' => format!("{:016X}", answer.real),
        _ => u64::from(answer.boolean).to_string(),
    };
    let written: Vec<String> = kind.outputs().bytes().map(output).collect();
    written.join(" ")
}

/// All that `soak` writes for this input.
#[must_use]
pub fn soak(input: &[u8]) -> String {
    let lines = lines(input);
    let Some((kind, s)) = lines.first().and_then(|line| first_line(line)) else {
        return "bad\n".into();
    };
    let (refused, _) = model::state_length(kind, &s);
    if refused != 0 {
        return format!("refused {refused}\n");
    }
    let mut out = format!("block {}\n", kind.name());
    let oracle = Oracle::new(kind, &s);
    let mut region = oracle.started();
    let (mut ticks, mut refusals) = (0, 0);
    for line in &lines[1..] {
        let Some((time, inputs)) = tick_line(kind, line) else {
            out += "bad\n";
            continue;
        };
        let number = model::refusal(kind, &s, &region, Some(time));
        if number != 0 {
            refusals += 1;
            out += &format!("refused {number}\n");
            continue;
        }
        ticks += 1;
        let answer = oracle.emit(f64::from_bits(time), &inputs, &region);
        oracle.update(f64::from_bits(time), &inputs, &mut region);
        out += &format!("{}\n", outputs(kind, &answer));
    }
    out + &format!("ticks {ticks} refused {refusals}\n")
}
