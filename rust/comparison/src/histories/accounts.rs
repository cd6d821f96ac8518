//! Document 01's answers as definitions over a history: its accepted updates from the latest wiping
//! tick onward (for `TrueFalseHold`, from the fresh start), the tick in question last.
use super::Tick;
use crate::model::controller::{Settings, Terms};
use crate::model::leaves::{positive_duration, real_of, word_of};
use crate::{Answer, Kind};

/// Whether a tick wipes the past, given the tick before it.
pub fn wipes(kind: Kind, before: &Tick, tick: &Tick) -> bool {
    let rises = |n: usize| tick.is_true(n) && !before.is_true(n);
    match kind {
        Kind::PidWithReset => rises(2),
        Kind::TimerAccumulating => rises(1),
        Kind::TrueDelay => !tick.is_true(0),
        Kind::TrueHoldWithReset => tick.is_true(1),
        _ => false,
    }
}

/// What an emit answers at the last tick of the history. A controller in PI mode answers from the
/// integrator before its tick, on a wiping tick too: its history then still has the ticks before.
pub fn answer(kind: Kind, s: &[u64], history: &[Tick]) -> Answer {
    let mut answer = Answer::default();
    match kind {
        Kind::PidWithReset => {
            let (tick, before) = history.split_last().expect("a history has a tick");
            answer.real = word_of(terms(s, tick, integrator(s, before)).y);
        }
        Kind::TimerAccumulating => {
            let total = sum(history, |a, b| a.is_true(0) && b.is_true(0));
            answer.real = word_of(total);
            answer.boolean = total >= real_of(s[0]);
        }
        Kind::TrueDelay => answer.boolean = delayed(history, positive_duration(real_of(s[0]))),
        Kind::TrueHoldWithReset => {
            answer.boolean = held(history, positive_duration(real_of(s[0])));
        }
        Kind::TrueFalseHold => answer.boolean = held_both_ways(s, history),
        _ => unreachable!("no account over histories"),
    }
    answer
}

/// The sum from 0.0, in order and each addition rounded, of the gaps whose two ends `counts` picks.
fn sum(history: &[Tick], counts: impl Fn(&Tick, &Tick) -> bool) -> f64 {
    let pairs = history.windows(2).filter(|p| counts(&p[0], &p[1]));
    pairs.fold(0.0, |x, p| x + (p[1].time - p[0].time))
}

/// The sum of all gaps.
fn elapsed(history: &[Tick]) -> f64 {
    sum(history, |_, _| true)
}

/// True when the input is and the sum since it rose reaches the delay.
fn delayed(history: &[Tick], delay: f64) -> bool {
    let last_false = history.iter().rposition(|tick| !tick.is_true(0));
    let rose = last_false.map_or(0, |n| n + 1);
    rose < history.len() && elapsed(&history[rose..]) >= delay
}

/// False on the wiping tick; else true when the input is, or when it was true one tick before and
/// the sum since its run began is below the duration.
fn held(history: &[Tick], duration: f64) -> bool {
    let (mut y, mut began) = (false, 0);
    for n in 1..history.len() {
        let was = y;
        y = history[n].is_true(0) || (was && elapsed(&history[began..=n]) < duration);
        if y && !was {
            began = n;
        }
    }
    y
}

/// Document 02, request 6: after the first tick the output changes exactly when the input differs
/// from it and the sum since its last change reaches what the present output needs.
fn held_both_ways(s: &[u64], history: &[Tick]) -> bool {
    let (mut y, mut changed) = (history[0].is_true(0), 0);
    for n in 1..history.len() {
        let need = positive_duration(real_of(if y { s[0] } else { s[1] }));
        if history[n].is_true(0) != y && elapsed(&history[changed..=n]) >= need {
            (y, changed) = (!y, n);
        }
    }
    y
}

/// The terms of a controller in PI mode.
fn terms(s: &[u64], tick: &Tick, integrator: f64) -> Terms {
    Settings::of(s).terms(&tick.inputs, |_| 0.0, integrator)
}

/// The integrator of a controller in PI mode after a history that begins at a wiping tick.
pub fn integrator(s: &[u64], history: &[Tick]) -> f64 {
    let settings = Settings::of(s);
    let first = settings.wiped(&terms(s, &history[0], 0.0));
    history.windows(2).fold(first, |x, pair| {
        let at = terms(s, &pair[1], x);
        settings.accumulated(&at, x, pair[1].time - pair[0].time)
    })
}
