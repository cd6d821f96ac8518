//! Document 02, request 3: runs of the variable pulse that are written out, its limits, and which classes its ticks meet.
use comparison::inputs::{next_down, next_up};
use comparison::oracle::Oracle;
use comparison::pulse_classes::{self, Anchor, Limit, PulseClass, Ratio, Set, Sign};
use comparison::sides::Side;
use comparison::{Kind, model};

const KIND: Kind = Kind::LogicalVariablePulse;

fn words(reals: [f64; 3]) -> [u64; 3] {
    reals.map(f64::to_bits)
}

/// The outputs of ticks from a fresh start, by the Rust and by the model.
fn outputs(settings: [f64; 3], ticks: &[(f64, f64)]) -> Vec<bool> {
    let s = words(settings);
    let oracle = Oracle::new(KIND, &s);
    let (mut theirs, mut mine) = (oracle.started(), [9; 5]);
    assert_eq!(model::start(KIND, &s, &mut mine), 0);
    let tick = |(t, u): &(f64, f64)| {
        let inputs = [u.to_bits(), 0, 0];
        let due = oracle.emit(*t, &inputs, &theirs);
        oracle.update(*t, &inputs, &mut theirs);
        assert_eq!(model::tick(KIND, &s, t.to_bits(), &inputs, &mut mine), due);
        assert_eq!(theirs, mine);
        due.boolean
    };
    ticks.iter().map(tick).collect()
}

/// A damper at 30 % of ten seconds: three of them true, and the next ones again.
#[test]
fn a_damper_at_thirty_percent() {
    let ticks: Vec<(f64, f64)> = (0..20).map(|n| (f64::from(n), 0.3)).collect();
    let due = (0..20).map(|n| n % 10 < 3).collect::<Vec<bool>>();
    assert_eq!(outputs([10.0, 0.05, 1.0], &ticks), due);
}

/// A change of exactly delta_u goes on with the cycle, of more begins another.
#[test]
fn a_change_of_width_begins_a_cycle() {
    let at = |u| outputs([8.0, 0.25, 1.0], &[(0.0, 0.5), (4.0, 0.5), (7.0, u)])[2];
    assert_eq!([0.75, next_up(0.75)].map(at), [false, true]);
}

/// A period below 2.02 times the hold is raised to that.
#[test]
fn short_periods_are_raised() {
    let at = |period, t| outputs([period, 0.5, 2.0], &[(0.0, 0.75), (3.5, 0.75), (t, 0.75)])[2];
    for period in [-1.0, 0.0, 4.0, 4.04] {
        assert_eq!([5.5, 7.0].map(|t| at(period, t)), [true, true], "{period}");
    }
    assert_eq!([5.5, 7.0].map(|t| at(8.0, t)), [true, false]);
}

/// A change of the output waits for the minimum hold; a first tick does not.
#[test]
fn the_minimum_hold() {
    let ticks = [(0.0, 1.0), (1.0, 0.0), (next_down(2.0), 0.0), (2.0, 0.0)];
    let due = [true, true, true, false];
    assert_eq!(outputs([8.0, 0.5, 2.0], &ticks), due);
}

#[test]
fn the_limits_of_the_settings() {
    let refusal = |s| model::state_length(KIND, &words(s)).0;
    let (least, most) = (next_down(0.01), next_up(0.5));
    for period in [-1e300, -0.0, 0.0, 5e-324, f64::MAX] {
        assert_eq!(refusal([period, 0.01, 1.0]), 0);
    }
    assert_eq!(refusal([1.0, 0.5, f64::MAX]), 0);
    let outside = [
        [1.0, least, 1.0],
        [1.0, most, 1.0],
        [1.0, -0.25, 1.0],
        [1.0, 0.25, next_down(1.0)],
        [1.0, 0.25, -2.0],
        [f64::INFINITY, 0.25, 1.0],
        [f64::NAN, 0.25, 1.0],
        [1.0, f64::NAN, 1.0],
        [1.0, 0.25, f64::INFINITY],
    ];
    assert_eq!(outside.map(refusal), [2; 9]);
}

/// The classes of a tick on these words: sampled, anchor, held, timer.
fn classes(s: [f64; 3], w: (f64, f64, bool, f64), t: f64, u: f64) -> Vec<PulseClass> {
    let (s, inputs) = (words(s), [u.to_bits(), 0, 0]);
    let reals = [w.0, w.1, w.3, -9.0].map(f64::to_bits);
    let before = [reals[0], reals[1], w.2.into(), reals[2], reals[3]];
    let mut after = before;
    let updated = model::update(KIND, &s, t.to_bits(), &inputs, &mut after);
    assert_eq!(updated.refusal, 0);
    pulse_classes::accepted(&s, &inputs, &before, &after)
}

/// Fails unless all of these are among them.
fn has(classes: &[PulseClass], wanted: &[PulseClass]) {
    let missing: Vec<_> = wanted.iter().filter(|c| !classes.contains(c)).collect();
    assert!(missing.is_empty(), "{missing:?} are not among {classes:?}");
}

#[test]
fn ratios_and_widths() {
    let met = |u| classes([10.0, 0.25, 1.0], (0.5, 0.0, false, 0.0), 3.0, u);
    let sorts = [
        (f64::NAN, Ratio::Nan),
        (f64::INFINITY, Ratio::PlusInfinity),
        (f64::NEG_INFINITY, Ratio::MinusInfinity),
        (-5e-324, Ratio::Negative),
        (-0.0, Ratio::MinusZero),
        (0.0, Ratio::Zero),
        (5e-324, Ratio::Between),
        (next_down(1.0), Ratio::Between),
        (1.0, Ratio::One),
        (next_up(1.0), Ratio::AboveOne),
    ];
    for (u, ratio) in sorts {
        has(&met(u), &[PulseClass::Ratio(ratio)]);
    }
    has(&met(f64::INFINITY), &[PulseClass::InfiniteSampled]);
    let widths = [
        (0.75, Side::At),
        (0.25, Side::At),
        (next_up(0.75), Side::Above),
        (next_down(0.75), Side::Below),
        (next_down(next_down(0.25)), Side::Above),
    ];
    for (u, side) in widths {
        has(&met(u), &[PulseClass::Width(side)]);
    }
}

/// A period of 4 1/128 s: whole ones lie in the middle of two millionths, behind the anchor and before it.
#[test]
fn cycles_and_what_is_rounded() {
    let period = 4.0078125;
    let met = |t, anchor| classes([period, 0.25, 1.0], (0.5, anchor, false, 9.0), t, 0.5);
    let middle = |sign| [PulseClass::Half(sign), PulseClass::Moved(sign)];
    has(&met(4.0 + period, 4.0), &middle(Sign::Positive));
    has(&met(4.0 + period, 4.0), &[PulseClass::Multiple(Side::At)]);
    has(&met(4.0 - period, 4.0), &middle(Sign::Negative));
    has(
        &met(4.0 - period, 4.0),
        &[PulseClass::Anchor(Anchor::Ahead)],
    );
    has(&met(4.0, 4.0), &[PulseClass::Begin(Side::At)]);
    has(&met(4.5, 4.0), &[PulseClass::Rounded(Sign::Zero)]);
    has(&met(4.0 + period / 2.0, 4.0), &[PulseClass::End(Side::At)]);
    has(
        &met(3.0, f64::NAN),
        &[PulseClass::Anchor(Anchor::NotFinite)],
    );
    has(&met(0.0, -1e15), &[PulseClass::Anchor(Anchor::Huge)]);
}

#[test]
fn periods_and_the_hold() {
    let met = |s, held, t| classes(s, (0.5, 0.0, held, 9.0), t, 0.5);
    let set = [
        (-1.0, Set::Negative),
        (-0.0, Set::Zero),
        (2.0, Set::Raised),
        (2.02, Set::Least),
        (next_up(2.02), Set::Longer),
    ];
    for (period, sort) in set {
        has(
            &met([period, 0.25, 1.0], false, 1.0),
            &[PulseClass::Set(sort)],
        );
    }
    has(
        &met([1.0, 0.25, 1e308], false, 1.0),
        &[PulseClass::Set(Set::Infinite)],
    );
    let hold = [80.0, 0.25, 10.0]; // the previous time is -9, and the timer 9
    has(&met(hold, true, 1.0), &[PulseClass::Agrees]);
    for (t, side) in [(next_down(-8.0), Side::Below), (-8.0, Side::At)] {
        has(&met(hold, true, t), &[PulseClass::Differs(side)]);
    }
}

#[test]
fn limits_that_are_refused_alone() {
    let refused = |s| pulse_classes::refused(&words(s));
    let beside = |limit, side| Some(PulseClass::Limit(limit, side));
    let below = beside(Limit::LeastDelta, Side::Below);
    assert_eq!(refused([1.0, next_down(0.01), 1.0]), below);
    let above = beside(Limit::MostDelta, Side::Above);
    assert_eq!(refused([1.0, next_up(0.5), 1.0]), above);
    let short = beside(Limit::LeastHold, Side::Below);
    assert_eq!(refused([1.0, 0.5, next_down(1.0)]), short);
    assert_eq!(refused([1.0, next_up(0.5), 0.5]), None);
    assert_eq!(refused([f64::NAN, next_up(0.5), 1.0]), None);
}
