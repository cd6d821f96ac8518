//! The model's leaves against the published ones, and which classes the arguments of rounding are of.
use std::collections::BTreeSet;

use comparison::inputs::{TWO_52, next_down, next_up};
use comparison::leaves::{MODEL, differences};
use comparison::model::leaves::UNSET;
use comparison::rounding_classes::{self, Parity, RoundingClass, Size};
use oce_blocks::access::leaves as published;

#[test]
fn the_models_leaves_are_the_published_ones() {
    assert_eq!(differences(&MODEL, 1_000_000, 5), Vec::<String>::new());
}

#[test]
fn a_wrong_leaf_is_found() {
    let mut wrong = MODEL;
    wrong.ceil = MODEL.floor;
    assert_eq!(differences(&wrong, 1000, 5).len(), 1);
    assert_eq!(differences(&MODEL, 0, 5).len(), 8, "no runs show nothing");
}

/// A comparison without runs names every class of rounding, of both leaves that round.
#[test]
fn rounding_must_meet_every_class() {
    let found = differences(&MODEL, 0, 5);
    for class in rounding_classes::all() {
        let named = format!("Rounds({class:?})");
        let missing = found.iter().filter(|d| d.contains(&named));
        let leaves: Vec<_> = missing.filter_map(|d| d.split(':').next()).collect();
        assert_eq!(leaves, ["ceil", "floor"], "{named}");
    }
}

/// Numbers, and what they are to rounding.
fn sizes() -> Vec<(f64, Vec<Size>)> {
    let (even, odd) = (Parity::Even, Parity::Odd);
    let two_51 = TWO_52 / 2.0;
    vec![
        (0.0, vec![Size::Zero]),
        (5e-324, vec![Size::Subnormal]),
        (next_down(f64::MIN_POSITIVE), vec![Size::Subnormal]),
        (f64::MIN_POSITIVE, vec![Size::BelowHalf]),
        (next_down(0.5), vec![Size::BelowHalf]),
        (0.5, vec![Size::Half]),
        (next_up(0.5), vec![Size::BelowOne]),
        (next_down(1.0), vec![Size::BelowOne, Size::JustBelow]),
        (1.0, vec![Size::Whole]),
        (next_up(1.0), vec![Size::JustAbove]),
        (1.25, vec![]),
        (1.5, vec![Size::Tie(odd)]),
        (2.5, vec![Size::Tie(even)]),
        (two_51 - 0.5, vec![Size::Tie(odd)]),
        (two_51 - 0.25, vec![Size::JustBelow]),
        (two_51, vec![Size::Whole]),
        (two_51 + 0.5, vec![Size::LargeTie(even)]),
        (two_51 + 1.5, vec![Size::LargeTie(odd)]),
        (TWO_52 - 1.0, vec![Size::Whole]),
        (TWO_52 - 0.5, vec![Size::LargeTie(odd), Size::BelowTwo52]),
        (TWO_52, vec![Size::Two52]),
        (TWO_52 + 1.0, vec![Size::OddBeyond]),
        (TWO_52 + 2.0, vec![]),
        (2.0 * TWO_52 - 1.0, vec![Size::OddBeyond]),
        (2.0 * TWO_52, vec![Size::Two53]),
        (f64::MAX, vec![Size::Two53]),
        (f64::INFINITY, vec![Size::Infinite]),
        (f64::NAN, vec![Size::Nan]),
    ]
}

#[test]
fn what_numbers_are_to_rounding() {
    let mut seen = BTreeSet::new();
    for (x, sizes) in sizes() {
        let met = |word| rounding_classes::of(word).collect::<Vec<_>>();
        let of = |sign: fn(Size) -> RoundingClass| sizes.iter().copied().map(sign).collect();
        let due: [Vec<_>; 2] = [RoundingClass::Positive, RoundingClass::Negative].map(of);
        assert_eq!([x, -x].map(|x| met(x.to_bits())), due, "{x}");
        seen.extend(due.concat());
    }
    assert_eq!(seen, rounding_classes::all().into_iter().collect());
}

#[test]
fn constants() {
    assert_eq!(UNSET, published::UNSET);
    assert_eq!((100.0f64 * 1e-15).to_bits(), published::MIN_PARAM.to_bits());
}
