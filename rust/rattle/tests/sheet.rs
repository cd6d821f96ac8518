//! The proved sheet: which numbers and rows it gives, that it is document 01's with rows that feed rows, and that it is its blocks
//! run singly.
use comparison::inputs::{self, Rng};
use comparison::sheet::Row;
use comparison::sheets::cases::cases;
use comparison::sheets::{Sheet, compare, expected_classes, worked};
use comparison::{Kind, model};
use rattle::{CALLS, SHEETS, guarded};

/// Each case's number and row, and by the model its answers and words; a refusal leaves all words as they were.
#[test]
fn refusals_and_their_rows() {
    for case in cases() {
        let left = case.call.made(&SHEETS);
        let got = (left.answer.refusal, left.answer.row as usize);
        assert_eq!(got, (case.refusal, case.row), "{}", case.name);
        let due = case.call.made(&model::sheet::CALLS);
        assert_eq!(left.difference(&due), None, "{}", case.name);
        if case.refusal != 0 {
            assert!(left == case.call.refused(case.refusal, case.row));
        }
    }
}

/// Rows that feed rows, worked out by hand.
#[test]
fn rows_that_feed_rows() {
    worked::run(&SHEETS);
}

/// A short look: the program `differ_sheet` compares many more.
#[test]
fn the_proved_sheet_is_document_01s_and_its_blocks() {
    let tally = compare(&SHEETS, &CALLS, 4_000, 9);
    assert!(tally.report("sheets", &expected_classes()));
}

/// A sheet of one row is its block: number, answers, warning and words.
#[test]
fn one_row_is_the_block() {
    let mut r = Rng::new(12, 0);
    for kind in Kind::ALL.into_iter().flat_map(|kind| [kind; 100]) {
        let s = inputs::settings(&mut r, kind);
        let region = inputs::region(&mut r, kind, &s);
        let time = inputs::tick_time(&mut r, kind, &s, &region);
        let [first, second, third] = inputs::tick_inputs(&mut r, kind);
        let mut sheet = Sheet::new(vec![Row::new(kind, &s, [5, 0, 7])]);
        sheet.region.clone_from(&region);
        let call = sheet.tick(time, [second, 9, 9, 9, 9, first, 9, third]);
        let (left, mut after) = (call.made(&SHEETS), region);
        let due = guarded::tick(kind as u64, &s, [time, first, second, third], &mut after);
        let answer = (left.answer.refusal, u64::from(left.answer.warning));
        assert_eq!(answer, (due.refusal, due.warning), "{kind:?}");
        assert!(left.region == after, "{kind:?}");
        let answers = match kind {
            _ if due.refusal != 0 => call.answers,
            Kind::TimerAccumulating => vec![due.real, due.boolean],
            _ => vec![due.real | due.boolean, 0], // the one that it lacks is 0
        };
        assert_eq!(left.answers, answers, "{kind:?}");
    }
}

/// The largest sheet: sixteen of the largest rings, four million words.
#[test]
fn sixteen_of_the_largest_rings() {
    let row = Row::new(Kind::MovingAverage, &[1e6f64.to_bits()], [0, 0, 0]);
    let mut sheet = Sheet::new(vec![row; 16]);
    assert_eq!(sheet.region.len(), 16 * 262_158);
    for call in [sheet.start(), sheet.tick(0, [3; 8])] {
        let left = call.made(&SHEETS);
        assert_eq!(left.difference(&call.made(&model::sheet::CALLS)), None);
    }
    sheet.region.pop();
    let left = sheet.start().made(&SHEETS);
    assert!(left == sheet.start().refused(3, 0));
}
