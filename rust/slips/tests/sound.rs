//! A ring that is refused because it is not sound shows in the call that refuses it; in the stored calls too, if that is an emit or an
//! update.
use comparison::compare::compare;
use comparison::stored::stored;
use comparison::{Calls, Kind};
use slips::{REFUSING, REFUSING_SLIPS};

const KIND: Kind = Kind::MovingAverage;

#[test]
fn what_refuses_an_unsound_ring_shows_in_its_call_alone() {
    for (slip, calls) in REFUSING_SLIPS.iter().zip(&REFUSING) {
        let differences = compare(calls, KIND, 1000, 3).differences;
        let in_sound = |d: &String| d.starts_with("sound of");
        assert!(!differences.is_empty(), "{} is missed", slip.name);
        assert!(!differences.iter().any(in_sound), "{}", slip.name);
    }
}

#[test]
fn the_stored_calls_show_what_refuses_an_unsound_ring() {
    let stored = stored(KIND);
    let shows = |calls: &&Calls| stored.iter().any(|call| !call.replay(calls));
    let shown = REFUSING.iter().filter(shows).count();
    assert_eq!(shown, REFUSING_SLIPS.len() - 1, "all but that of decode");
}
