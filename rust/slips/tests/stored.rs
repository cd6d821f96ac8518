//! The stored calls hold for the model, and show every slip that an emit or update can show.
use comparison::compare::compare;
use comparison::stored::{Stored, stored};
use comparison::{Calls, Kind, model};
use slips::of_blocks;

fn failures(calls: &[Stored], subject: &Calls) -> usize {
    calls.iter().filter(|call| !call.replay(subject)).count()
}

#[test]
fn the_model_answers_as_stored() {
    for kind in Kind::ALL {
        let calls = stored(kind);
        assert!(calls.len() >= 200, "{kind:?} has {} calls", calls.len());
        assert_eq!(failures(&calls, &model::CALLS), 0, "{kind:?}");
    }
}

/// Calls that are not stored. Of a start the stored sessions tell: each begins with one.
const NOT_STORED: [&str; 4] = ["start of", "sound of", "decode of", "run of"];

/// Whether calls that are not stored show the slip, and no others.
fn shows_elsewhere(kind: Kind, slipped: &Calls) -> bool {
    let differences = compare(slipped, kind, 400, 3).differences;
    let elsewhere = |d: &String| NOT_STORED.iter().any(|call| d.starts_with(call));
    !differences.is_empty() && differences.iter().all(elsewhere)
}

#[test]
fn every_slip_shows_in_the_stored_calls() {
    let mut elsewhere = 0;
    for (slip, slipped) in of_blocks() {
        let kind = Kind::named(slip.block).expect("a block has this name");
        if failures(&stored(kind), slipped) == 0 {
            assert!(shows_elsewhere(kind, slipped), "missed: {}", slip.name);
            elsewhere += 1;
        }
    }
    assert_eq!(elsewhere, 14, "slips of the other calls in the table");
}
