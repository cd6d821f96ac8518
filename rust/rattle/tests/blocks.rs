//! The proved blocks against the ported Rust, and against the stored answers.
use comparison::Kind;
use comparison::compare::compare;
use comparison::stored::stored;
use comparison::tally::{Class, expected_classes};
use rattle::CALLS;

#[test]
fn the_proved_blocks_are_the_published_ones() {
    let others = Kind::ALL.into_iter().filter(|k| *k != Kind::MovingAverage);
    for kind in others {
        let tally = compare(&CALLS, kind, 2_000, 9);
        assert!(tally.report(&kind.name(), &expected_classes(kind)));
    }
}

/// A short look: its classes need the many runs of the program `differ_proved`.
#[test]
fn the_proved_average_is_the_published_one() {
    let tally = compare(&CALLS, Kind::MovingAverage, 200, 9);
    assert_eq!(tally.differences, Vec::<String>::new());
    assert!(tally.count(Class::Accepted) > 0);
}

#[test]
fn the_proved_blocks_give_the_stored_answers() {
    for kind in Kind::ALL {
        let calls = stored(kind);
        assert!(calls.len() >= 200);
        assert!(calls.iter().all(|call| call.replay(&CALLS)), "{kind:?}");
    }
}
