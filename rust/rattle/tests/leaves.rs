//! The proved leaves against the published ones.
use comparison::leaves::differences;

#[test]
fn the_proved_leaves_are_the_published_ones() {
    let found = differences(&rattle::LEAVES, 1_000_000, 6);
    assert_eq!(found, Vec::<String>::new());
}
