//! Faults planted in a call that was accepted: each stands for one refusal number.
use crate::Kind;
use crate::inputs::{NOT_FINITE, Rng, next_up, refuse_setting};
use crate::lengths::other_length;
use crate::model;
use crate::sheet::{NO_BLOCK, ROW_WORDS, SETTINGS, rows_of};

use super::Call;

/// A refusal number, and the row that its fault is put into; 3, 4 and 5 are of no row.
#[derive(Clone, Copy, Debug, PartialEq, Eq)]
pub struct Fault {
    pub number: u64,
    pub row: usize,
}

/// The order in which faults are put in: each still finds what it needs.
const PLANTED: [u64; 8] = [7, 6, 2, 4, 5, 3, 1, NO_BLOCK];

/// Puts the faults into a call, and hands back those that it has then. A P controller keeps no time, a start has neither
/// time nor answers, and a second change of a length could undo the first.
pub fn plant(r: &mut Rng, call: &mut Call, faults: &[Fault]) -> Vec<Fault> {
    let mut planted = vec![];
    for number in PLANTED {
        let own = faults.iter().filter(|fault| fault.number == number);
        let once = [3, 4, NO_BLOCK].contains(&number);
        let own = own.take(if once { 1 } else { faults.len() });
        planted.extend(own.filter(|fault| put(r, call, **fault)));
    }
    planted
}

/// The number and the row that are due for these faults: 13 first, then the least number, with its topmost row if it has one.
#[must_use]
pub fn due(faults: &[Fault]) -> (u64, usize) {
    let rank = |fault: &&Fault| (fault.number != NO_BLOCK, fault.number, fault.row);
    match faults.iter().min_by_key(rank) {
        Some(&Fault { number, row }) if [2, 6, 7].contains(&number) => (number, row),
        Some(fault) => (fault.number, 0),
        None => (0, 0),
    }
}

/// Puts in one fault; says whether it could.
fn put(r: &mut Rng, call: &mut Call, fault: Fault) -> bool {
    match (fault.number, &mut call.tick) {
        (1, _) => spoil_form(r, &mut call.rows, fault.row),
        (2, _) => spoil_setting(r, &mut call.rows[fault.row * ROW_WORDS..]),
        (3, _) => call.region.resize(other_length(r, call.region.len()), 7),
        (4, Some(_)) => call.answers.resize(other_length(r, call.answers.len()), 7),
        (5, Some(tick)) => tick.time = r.pick(&[&NOT_FINITE[..], &[u64::MAX]].concat()),
        (6, tick) => {
            let tested = tick.is_some(); // a start tests no words
            return damage(r, call, fault.row) && tested;
        }
        (7, Some(_)) => return set_ahead(r, call, fault.row),
        (NO_BLOCK, _) => name_no_block(r, &mut call.rows, fault.row),
        _ => return false,
    }
    true
}

/// Columns that name nothing that row n of so many may read: its own two words, then words of the next row and the last, then the
/// first behind these rows' and behind sixteen rows', then far ones.
#[must_use]
pub fn bad_columns(n: usize, rows: usize) -> [u64; 10] {
    let (own, end) = (8 + 2 * n as u64, 8 + 2 * rows as u64);
    let [next, last, past] = [own + 2, end - 1, end];
    [
        own,
        own + 1,
        next,
        next + 1,
        last,
        past,
        40,
        1 << 32,
        1 << 63,
        u64::MAX,
    ]
}

/// A column that names nothing in one of the three places, or no rows, or more than 16.
fn spoil_form(r: &mut Rng, rows: &mut Vec<u64>, row: usize) {
    let place = row * ROW_WORDS + 1 + r.below(3) as usize;
    let columns = bad_columns(row, rows.len() / ROW_WORDS);
    let sorts = [&columns[..2], &columns[2..5], &columns[5..7], &columns[7..]];
    match r.below(8) {
        0 => rows.clear(),
        1 => {
            let count = r.pick(&[17, 17, 18, 33]);
            *rows = rows
                .iter()
                .copied()
                .cycle()
                .take(count * ROW_WORDS)
                .collect();
        }
        _ if place < rows.len() => {
            let sort = r.pick(&sorts);
            rows[place] = r.pick(sort);
        }
        _ => {}
    }
}

/// A setting that is refused.
fn spoil_setting(r: &mut Rng, row: &mut [u64]) {
    let kind = Kind::ALL[row[0] as usize];
    refuse_setting(r, kind, &mut row[SETTINGS..]);
}

/// A number of no block, a type of no controller, or words that are not seventeen each.
fn name_no_block(r: &mut Rng, rows: &mut Vec<u64>, row: usize) {
    let place = row * ROW_WORDS;
    match r.below(4) {
        _ if place >= rows.len() => rows.push(0),
        0 => drop(rows.pop()),
        1 => rows.push(0),
        2 if rows[place] < 2 => rows[place + SETTINGS] = r.pick(&[4, 5, 1 << 32, u64::MAX]),
        _ => rows[place] = r.pick(&[8, 9, 1 << 32, u64::MAX]),
    }
}

/// A previous time that is neither unset nor finite, or a head or count outside of the ring.
fn damage(r: &mut Rng, call: &mut Call, row: usize) -> bool {
    let (words, kind, time) = stretch(call, row);
    if kind == Kind::MovingAverage && r.one_in(2) {
        let capacity = (words.len() as u64 - 6) / 2;
        if r.one_in(2) {
            words[3] = r.pick(&[capacity, capacity + 1, u64::MAX]);
        } else {
            words[4] = r.pick(&[capacity + 1, capacity + 2, u64::MAX]);
        }
        return true;
    }
    time.is_some_and(|n| {
        words[n] = r.pick(&NOT_FINITE);
        true
    })
}

/// A previous time above the tick's, which is finite.
fn set_ahead(r: &mut Rng, call: &mut Call, row: usize) -> bool {
    let time = f64::from_bits(call.tick.map_or(0, |tick| tick.time));
    let ahead = r.pick(&[next_up(time), time + 1.0, f64::MAX]);
    let (words, _, place) = stretch(call, row);
    match place {
        Some(n) if ahead.is_finite() && ahead > time => words[n] = ahead.to_bits(),
        _ => return false,
    }
    true
}

/// The row's stretch, its block, and the place of the previous time in it. The rows name blocks, and their lengths are those of the region.
fn stretch(call: &mut Call, row: usize) -> (&mut [u64], Kind, Option<usize>) {
    let rows = rows_of(&call.rows).expect("the rows name blocks");
    let length = |n: usize| model::state_length(rows[n].kind, &rows[n].settings).1;
    let begin: usize = (0..row).map(length).sum();
    let words = &mut call.region[begin..begin + length(row)];
    let kind = rows[row].kind;
    (words, kind, kind.time_place(&rows[row].settings))
}
