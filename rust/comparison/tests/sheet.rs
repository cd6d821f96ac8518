//! Document 01's bench sheet, on the model: refusals, answers, warning, rows that feed rows, and that a sheet is its blocks.
use comparison::inputs::{self, Rng, bench_controller};
use comparison::model::{self, leaves::UNSET};
use comparison::sheet::{Row, SheetAnswer, words_of};
use comparison::sheets::cases::cases;
use comparison::sheets::{Left, Sheet, worked};
use comparison::{Kind, sheet};

const NAN: u64 = 0x7FF8_0000_0000_0000;

fn w(x: f64) -> u64 {
    x.to_bits()
}

fn row(kind: Kind, settings: &[u64], columns: [u64; 3]) -> Row {
    Row::new(kind, settings, columns)
}

/// The sheet's start, made.
fn started(rows: Vec<Row>) -> Sheet {
    let mut sheet = Sheet::new(rows);
    let left = sheet.start().made(&model::sheet::CALLS);
    assert_eq!(left.answer, SheetAnswer::default());
    sheet.region = left.region;
    sheet
}

/// A tick that is accepted, made.
fn ticked(sheet: &mut Sheet, time: f64, words: [u64; 8]) -> Left {
    let left = sheet.tick(w(time), words).made(&model::sheet::CALLS);
    assert_eq!(left.answer.refusal, 0);
    sheet.region.clone_from(&left.region);
    left
}

/// The number and the row that are due, and a refusal leaves all words as they were.
#[test]
fn refusals_and_their_rows() {
    let cases = cases();
    assert!(cases.len() > 8000);
    for case in &cases {
        let left = case.call.made(&model::sheet::CALLS);
        let got = (left.answer.refusal, left.answer.row as usize);
        assert_eq!(got, (case.refusal, case.row), "{}", case.name);
        if case.refusal != 0 {
            let due = case.call.refused(case.refusal, case.row);
            assert_eq!(left, due, "{}", case.name);
        }
    }
    for number in [0, 1, 2, 3, 4, 5, 6, 7, 13] {
        assert!(cases.iter().any(|case| case.refusal == number), "{number}");
    }
}

/// Row P11 of the bench table.
#[test]
fn p11_no_rows() {
    let sheet = Sheet::new(vec![]);
    let due = sheet.start().refused(1, 0);
    assert_eq!(sheet.start().made(&model::sheet::CALLS), due);
}

/// All eight blocks in one sheet, from a start: their words end to end, their answers in pairs.
#[test]
fn every_block_on_its_stretch() {
    let pi = bench_controller(1, 1.0, 0.75);
    let mut sheet = started(vec![
        row(Kind::TimerAccumulating, &[w(0.0)], [4, 5, 0]),
        row(Kind::Pid, &bench_controller(0, 2.0, 0.0), [0, 1, 0]),
        row(Kind::PidWithReset, &pi, [0, 1, 5]),
        row(Kind::TrueDelay, &[w(2.0), 0], [4, 0, 0]),
        row(Kind::TrueFalseHold, &[w(2.0), w(2.0)], [4, 0, 0]),
        row(Kind::TrueHoldWithReset, &[w(2.0)], [4, 5, 0]),
        row(
            Kind::LogicalVariablePulse,
            &[w(4.0), w(0.25), w(1.0)],
            [1, 0, 0],
        ),
        row(Kind::MovingAverage, &[w(2.0)], [2, 0, 0]),
    ]);
    assert_eq!(sheet.region.len(), 5 + 3 + 4 + 3 + 3 + 5 + 4110);
    let (timer, pi, delay, hold) = (
        [0, UNSET, 0, 0, 1],
        [0, UNSET, 0],
        [0, UNSET, 0, 0],
        [0, 0, UNSET],
    );
    let pulse = [0, 0, 0, 0, UNSET];
    let due = [&timer[..], &pi, &delay, &hold, &hold, &pulse].concat();
    assert_eq!(sheet.region[..23], due);
    let words = [w(0.5), w(0.25), w(3.0), NAN, 7, 0, NAN, NAN];
    let first = ticked(&mut sheet, 0.0, words);
    let due = [0, 1, w(0.5), 0, w(0.25), 0, 1, 0, 1, 0, 1, 0, 1, 0, 0, 0];
    assert_eq!(first.answers, due);
    ticked(&mut sheet, 1.0, words);
    let third = ticked(&mut sheet, 2.0, words);
    let due = [
        w(2.0),
        1,
        w(0.5),
        0,
        w(0.75),
        0,
        1,
        0,
        1,
        0,
        1,
        0,
        0,
        0,
        w(3.0),
        0,
    ];
    assert_eq!(third.answers, due);
}

/// A column is read as the block reads it: the word of a real is true as a boolean unless it is 0, and a NaN is handed out as the one.
#[test]
fn one_column_read_by_several_rows() {
    let p = bench_controller(0, 2.0, 0.0);
    let mut sheet = started(vec![
        row(Kind::Pid, &p, [6, 7, 7]),
        row(Kind::TrueDelay, &[w(2.0), 0], [6, 6, 6]),
        row(Kind::TrueDelay, &[w(2.0), 0], [7, 6, 6]),
    ]);
    let mut words = [9; 8];
    (words[6], words[7]) = (0xFFF4_0000_0000_1234, 0);
    let left = ticked(&mut sheet, 0.0, words);
    assert_eq!(left.answers, [NAN, 0, 1, 0, 0, 0]);
}

/// Rows that feed rows, worked out by hand.
#[test]
fn rows_that_feed_rows() {
    worked::run(&model::sheet::CALLS);
}

/// Points that come too close warn once; the sheet warns if any row does, wherever it stands.
#[test]
fn the_warning_of_any_row() {
    let hold = row(Kind::TrueHoldWithReset, &[w(2.0)], [4, 5, 0]);
    let average = row(Kind::MovingAverage, &[w(1024.0)], [0, 0, 0]);
    for place in 0..3 {
        let mut rows = vec![hold.clone(); 3];
        rows[place] = average.clone();
        let mut sheet = started(rows);
        let mut warning = |time| ticked(&mut sheet, time, [0; 8]).answer.warning;
        let warned = [0.0, 0.4, 0.6, 0.8].map(&mut warning);
        assert_eq!(warned, [false, false, true, false], "row {place}");
    }
}

/// A sheet of one row is its block: number, answers, warning and words.
#[test]
fn one_row_is_the_block() {
    let mut r = Rng::new(12, 0);
    for kind in Kind::ALL.into_iter().flat_map(|kind| [kind; 200]) {
        let s = inputs::settings(&mut r, kind);
        let region = inputs::region(&mut r, kind, &s);
        let time = inputs::tick_time(&mut r, kind, &s, &region);
        let inputs = inputs::tick_inputs(&mut r, kind);
        let mut sheet = Sheet::new(vec![row(kind, &s, [5, 0, 7])]);
        sheet.region.clone_from(&region);
        let [first, second, third] = inputs;
        let call = sheet.tick(time, [second, 9, 9, 9, 9, first, 9, third]);
        let left = call.made(&model::sheet::CALLS);
        let mut after = region;
        let due = model::tick(kind, &s, time, &inputs, &mut after);
        assert_eq!(left.answer.refusal, due.refusal);
        assert_eq!((left.answer.warning, left.answer.row), (due.warning, 0));
        assert_eq!(left.region, after);
        let (real, boolean) = (due.real, u64::from(due.boolean));
        let answers = match kind {
            _ if due.refusal != 0 => call.answers,
            Kind::TimerAccumulating => vec![real, boolean],
            Kind::Pid | Kind::PidWithReset | Kind::MovingAverage => vec![real, 0],
            _ => vec![boolean, 0],
        };
        assert_eq!(left.answers, answers, "{kind:?}");
    }
}

/// Words name the rows that they were made from.
#[test]
fn rows_as_words() {
    let rows = vec![
        row(Kind::Pid, &bench_controller(3, 1.0, 0.0), [0, 7, 3]),
        row(Kind::TrueDelay, &[w(2.0), 0], [1, 2, 8]),
    ];
    assert_eq!(sheet::rows_of(&words_of(&rows)), Some(rows));
}
