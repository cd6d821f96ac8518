//! What a comparison of sheets meets.
use crate::lengths::Off;
use crate::sheet::{NO_BLOCK, Row, rows_of};
use crate::tally::{Word, met};
use crate::{Kind, model, model::leaves};

use super::feeding::{self, As, Bad, Fed};
use super::{Call, Fault, Left};

/// A sort of call or answer.
#[derive(Clone, Copy, Debug, PartialEq, Eq, PartialOrd, Ord)]
pub enum SheetClass {
    Started,
    Ticked,
    StartRefused(u64),
    TickRefused(u64),
    /// An accepted tick of so many rows.
    Rows(usize),
    /// A row with this block in an accepted tick.
    Block(Kind),
    /// Rows that read one column, in an accepted tick.
    SharedColumn,
    Warned,
    /// A warning, though the last row has none to give.
    WarnedAbove,
    /// An answer that is the one NaN.
    Nan,
    /// A second output that is true.
    Passed,
    NoRows,
    TooManyRows,
    /// Columns that name nothing, but none that a block reads.
    UnreadColumn,
    /// One column that names nothing, in a start and in a tick, and nothing else that 1 is for.
    StartColumn(Bad),
    TickColumn(Bad),
    /// An accepted tick of rows that do not feed each other.
    Unfed,
    /// An accepted tick in which a chain of rows, each of which reads the one before it in the chain, has so many links.
    Chain(usize),
    /// A column with the last answer word that row n may read.
    Last(usize),
    /// A fed column in a place that its block does not read.
    FedUnread,
    /// A fed word, and as what it is read.
    Fed(Fed, As),
    /// A fed duty ratio of a variable pulse that lies between 0 and 1.
    FedRatio,
    /// A boolean setting of a row in an accepted tick.
    BooleanSetting(Word),
    /// A region or an answer space refused for its length: how far it is off.
    RegionLength(Off),
    AnswersLength(Off),
    /// A refusal for a setting of a pulse that is finite, and outside its limits.
    OutsideLimits,
    /// A refusal of this number that names another row than the first.
    Lower(u64),
    /// A refusal of this number with several rows at fault for it.
    Several(u64),
    /// A refusal of this number, and above its row one with a fault of a greater number.
    Before(u64),
}

use SheetClass::*;

/// What a comparison of many sheets must meet.
#[must_use]
pub fn expected_classes() -> Vec<SheetClass> {
    let mut wanted = vec![
        Started,
        Ticked,
        SharedColumn,
        Warned,
        WarnedAbove,
        Nan,
        Passed,
    ];
    wanted.extend([NoRows, TooManyRows, UnreadColumn, Before(2), Before(6)]);
    wanted.extend([Unfed, FedUnread, FedRatio, OutsideLimits]);
    wanted.extend((1..=15).flat_map(|n| [Chain(n), Last(n)]));
    wanted.extend(
        Bad::ALL
            .into_iter()
            .flat_map(|bad| [StartColumn(bad), TickColumn(bad)]),
    );
    let read = |fed| [As::Real, As::Boolean].map(|read| Fed(fed, read));
    wanted.extend(Fed::ALL.into_iter().flat_map(read));
    wanted.extend([1, 2, 3, NO_BLOCK].map(StartRefused));
    wanted.extend([1, 2, 3, 4, 5, 6, 7, NO_BLOCK].map(TickRefused));
    wanted.extend((1..=16).map(Rows));
    wanted.extend(Kind::ALL.map(Block));
    wanted.extend(Word::ALL.map(BooleanSetting));
    wanted.extend(Off::ALL.map(RegionLength));
    wanted.extend(Off::ALL.map(AnswersLength));
    wanted.extend([2, 6, 7].map(Lower));
    wanted.extend([2, 6, 7].map(Several));
    wanted
}

/// What a call with these faults meets, by what is due.
pub(super) fn classes(call: &Call, faults: &[Fault], due: &Left) -> Vec<SheetClass> {
    let rows = rows_of(&call.rows).unwrap_or_default();
    let mut classes = match (due.answer.refusal, &call.tick) {
        (0, None) => vec![Started],
        (0, Some(_)) => accepted(&rows, due),
        (n, None) => vec![StartRefused(n)],
        (n, Some(_)) => vec![TickRefused(n)],
    };
    if let (1, Some(bad)) = (due.answer.refusal, feeding::only_bad(&rows)) {
        let column = if call.tick.is_some() {
            TickColumn
        } else {
            StartColumn
        };
        classes.push(column(bad));
    }
    classes.extend(refused(&rows, faults, due));
    classes.extend(lengths(&rows, call, due.answer.refusal));
    classes
}

/// How far the refused length is off.
fn lengths(rows: &[Row], call: &Call, refused: u64) -> Vec<SheetClass> {
    let length = |row: &Row| model::state_length(row.kind, &row.settings).1;
    let region = rows.iter().map(length).sum();
    match refused {
        3 => Off::of(call.region.len(), region)
            .map(RegionLength)
            .collect(),
        4 => Off::of(call.answers.len(), 2 * rows.len())
            .map(AnswersLength)
            .collect(),
        _ => vec![],
    }
}

fn accepted(rows: &[Row], due: &Left) -> Vec<SheetClass> {
    let read = |row: &Row| row.columns[..row.kind.inputs().len()].to_vec();
    let columns: Vec<u64> = rows.iter().flat_map(read).collect();
    let shared = (1..columns.len()).any(|n| columns[..n].contains(&columns[n]));
    let last = rows.last().map(|row| row.kind);
    let (firsts, seconds) = (
        due.answers.iter().step_by(2),
        due.answers.iter().skip(1).step_by(2),
    );
    let nan = firsts
        .filter(|word| f64::from_bits(**word).is_nan())
        .count()
        > 0;
    let mut classes = vec![Ticked, Rows(rows.len())];
    classes.extend(feeding::fed(rows, &due.answers));
    classes.extend(rows.iter().map(|row| Block(row.kind)));
    let booleans = rows
        .iter()
        .flat_map(|row| Word::settings(row.kind, &row.settings));
    classes.extend(booleans.map(BooleanSetting));
    classes.extend(met([
        (SharedColumn, shared),
        (Warned, due.answer.warning),
        (
            WarnedAbove,
            due.answer.warning && last != Some(Kind::MovingAverage),
        ),
        (Nan, nan),
        (Passed, seconds.sum::<u64>() > 0),
    ]));
    classes
}

fn refused(rows: &[Row], faults: &[Fault], due: &Left) -> Vec<SheetClass> {
    let (number, row) = (due.answer.refusal, due.answer.row as usize);
    let read = |(n, row): (usize, &Row)| {
        let mut columns = row.columns[..row.kind.inputs().len()].iter();
        columns.any(|c| Bad::of(n, rows.len(), *c).is_some())
    };
    let fits = (1..=16).contains(&rows.len());
    let own = faults.iter().filter(|fault| fault.number == number);
    let mut own: Vec<usize> = own.map(|fault| fault.row).collect();
    own.sort_unstable();
    own.dedup();
    let above =
        |fault: &Fault| [6, 7].contains(&fault.number) && fault.number > number && fault.row < row;
    let of_rows = [2, 6, 7].contains(&number);
    let is_finite = |row: &Row| row.settings.iter().all(|word| leaves::is_finite(*word));
    let outside = number == 2 && is_finite(&rows[row]);
    let classes = met([
        (NoRows, number == 1 && rows.is_empty()),
        (TooManyRows, number == 1 && rows.len() > 16),
        (
            UnreadColumn,
            number == 1 && fits && !rows.iter().enumerate().any(read),
        ),
        (OutsideLimits, outside),
        (Lower(number), of_rows && row > 0),
        (Several(number), of_rows && own.len() > 1),
        (Before(number), of_rows && faults.iter().any(above)),
    ]);
    classes.collect()
}
