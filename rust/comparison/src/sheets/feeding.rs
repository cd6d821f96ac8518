//! What rows that feed rows meet: how they are chained, which words are handed on and as what they are read, and columns that name
//! nothing.
use crate::Kind;
use crate::inputs::MINUS_ZERO;
use crate::sheet::Row;

use super::SheetClass;

/// A column of 8 or more that names nothing that its row may read.
#[derive(Clone, Copy, Debug, PartialEq, Eq, PartialOrd, Ord)]
pub enum Bad {
    /// The row's own first word, and its second.
    Own,
    OwnSecond,
    /// A word of a row further down.
    Later,
    /// The first word behind the last row's.
    Past,
    /// No word of any sheet.
    Far,
}

impl Bad {
    pub(super) const ALL: [Bad; 5] = [Bad::Own, Bad::OwnSecond, Bad::Later, Bad::Past, Bad::Far];

    /// What a column of row n, of so many, names in the place of a word further up; none if it names a word that the row may read.
    pub(super) fn of(n: usize, rows: usize, column: u64) -> Option<Bad> {
        let (own, end) = (8 + 2 * n as u64, 8 + 2 * rows as u64);
        match column {
            c if c < own => None,
            c if c == own => Some(Bad::Own),
            c if c == own + 1 => Some(Bad::OwnSecond),
            c if c < end => Some(Bad::Later),
            c if c == end => Some(Bad::Past),
            _ => Some(Bad::Far),
        }
    }
}

/// A word that a row hands on.
#[derive(Clone, Copy, Debug, PartialEq, Eq, PartialOrd, Ord)]
pub enum Fed {
    /// A boolean output.
    False,
    True,
    /// The second output of a timer that has passed.
    Passed,
    /// The 0 of a block that has no second output.
    NoSecond,
    /// A real output: 0.0, -0.0, a NaN, or any other.
    Zero,
    MinusZero,
    Nan,
    Real,
}

/// As what a word is read.
#[derive(Clone, Copy, Debug, PartialEq, Eq, PartialOrd, Ord)]
pub enum As {
    Real,
    Boolean,
}

impl Fed {
    pub(super) const ALL: [Fed; 8] = [
        Fed::False,
        Fed::True,
        Fed::Passed,
        Fed::NoSecond,
        Fed::Zero,
        Fed::MinusZero,
        Fed::Nan,
        Fed::Real,
    ];

    /// What this answer word of the rows is.
    fn of(rows: &[Row], place: usize, word: u64) -> Fed {
        let outputs = rows[place / 2].kind.outputs().as_bytes();
        match (outputs.get(place % 2), word) {
            (None, _) => Fed::NoSecond,
            (Some(b'b'), 0) => Fed::False,
            (Some(b'b'), _) if place % 2 == 1 => Fed::Passed,
            (Some(b'b'), _) => Fed::True,
            (Some(_), 0) => Fed::Zero,
            (Some(_), MINUS_ZERO) => Fed::MinusZero,
            (Some(_), word) if f64::from_bits(word).is_nan() => Fed::Nan,
            (Some(_), _) => Fed::Real,
        }
    }
}

/// What the columns of an accepted tick meet, which answers these words.
pub(super) fn fed(rows: &[Row], answers: &[u64]) -> Vec<SheetClass> {
    let mut classes = vec![];
    for (n, row) in rows.iter().enumerate() {
        for (i, column) in row.columns.iter().enumerate().filter(|(_, c)| **c >= 8) {
            let place = *column as usize - 8;
            let word = Fed::of(rows, place, answers[place]);
            classes.push(match row.kind.inputs().as_bytes().get(i) {
                None => SheetClass::FedUnread,
                Some(b'r') => SheetClass::Fed(word, As::Real),
                Some(_) => SheetClass::Fed(word, As::Boolean),
            });
            let ratio = f64::from_bits(answers[place]);
            let is_ratio = i == 0 && 0.0 < ratio && ratio < 1.0;
            if is_ratio && row.kind == Kind::LogicalVariablePulse {
                classes.push(SheetClass::FedRatio);
            }
            if place + 1 == 2 * n {
                classes.push(SheetClass::Last(n));
            }
        }
    }
    if classes.is_empty() {
        classes.push(SheetClass::Unfed);
    }
    let longest = links(rows).into_iter().max().filter(|links| *links > 0);
    classes.extend(longest.map(SheetClass::Chain));
    classes
}

/// How many links the longest chain has that ends in each row: a link is a column that the row's block reads.
fn links(rows: &[Row]) -> Vec<usize> {
    let mut links: Vec<usize> = vec![];
    for row in rows {
        let read = row.columns[..row.kind.inputs().len()].iter();
        let above = read.filter(|c| **c >= 8).map(|c| (*c as usize - 8) / 2);
        links.push(above.map(|n| 1 + links[n]).max().unwrap_or(0));
    }
    links
}

/// The one column that names nothing in rows that are not too many; none if there are several or none.
pub(super) fn only_bad(rows: &[Row]) -> Option<Bad> {
    let named = |(n, row): (usize, &Row)| row.columns.map(|c| Bad::of(n, rows.len(), c));
    let mut bad = rows.iter().enumerate().flat_map(named).flatten();
    let first = bad.next().filter(|_| rows.len() <= 16);
    if bad.next().is_none() { first } else { None }
}
