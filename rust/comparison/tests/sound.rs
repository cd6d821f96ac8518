//! Document 02, request 2, on rings that are written out: which are sound, and that every other call takes the others as before.
use comparison::inputs::{self, Rng};
use comparison::model::{self, leaves::UNSET};
use comparison::{Kind, Update};

const KIND: Kind = Kind::MovingAverage;

/// Every delta up to 1024 has this ring.
const SLOTS: usize = 2052;
const SETTINGS: [u64; 1] = [0x4000_0000_0000_0000];

/// A region with points at these times, the first in this slot.
fn region(head: usize, times: &[f64], previous: u64) -> Vec<u64> {
    let mut region = vec![0; 6 + 2 * SLOTS];
    (region[2], region[3], region[4]) = (previous, head as u64, times.len() as u64);
    for (n, t) in times.iter().enumerate() {
        region[6 + (head + n) % SLOTS] = t.to_bits();
    }
    region
}

fn is_sound(head: usize, times: &[f64], previous: f64) -> bool {
    model::sound(KIND, &SETTINGS, &region(head, times, previous.to_bits()))
}

/// Whether it is sound, with the points in the first slots, in the last, and around the turn.
fn sound_everywhere(times: &[f64], previous: f64) -> bool {
    let heads = [
        0,
        7,
        SLOTS - times.len(),
        SLOTS - 1,
        SLOTS - times.len() / 2,
    ];
    let sound = heads.map(|head| is_sound(head % SLOTS, times, previous));
    assert!(sound.iter().all(|is| *is == sound[0]), "{times:?}");
    sound[0]
}

#[test]
fn rings_that_are_sound() {
    assert!(sound_everywhere(&[], 3.0), "no points");
    assert!(
        sound_everywhere(&[3.0], 3.0),
        "a point at the previous time"
    );
    assert!(sound_everywhere(&[-2.0, -1.0, 0.5, 3.0], 3.0));
    assert!(sound_everywhere(&[1.0, 1.0, 1.0], 3.0), "equal times");
    assert!(sound_everywhere(&[-0.0, 0.0, -0.0, -0.0], 0.0), "zeros");
    assert!(sound_everywhere(&[0.0], -0.0), "0.0 is not above -0.0");
    assert!(sound_everywhere(&[f64::MIN, f64::MAX], f64::MAX));
    let full: Vec<f64> = (0..SLOTS).map(|n| n as f64).collect();
    assert!(sound_everywhere(&full, SLOTS as f64), "a full ring");
}

/// Times and a previous time that make no sound ring.
fn unsound() -> Vec<(Vec<f64>, f64)> {
    let beside = 1.0 - f64::EPSILON / 2.0;
    vec![
        (vec![2.0, 1.0], 3.0),
        (vec![1.0, 2.0, 1.5, 3.0], 3.0),
        (vec![1.0, beside], 3.0),
        (vec![-1.0, -2.0], 0.0),
        (vec![0.0, -5e-324], 0.0),
        (vec![1.0, 2.0], beside),
        (vec![1.0], beside),
        (vec![5e-324], -0.0),
        (vec![f64::NEG_INFINITY, 1.0], 3.0),
        (vec![1.0, f64::INFINITY], 3.0),
        (vec![1.0, f64::NAN, 2.0], 3.0),
        (vec![f64::NAN], 3.0),
        (vec![1.0, 2.0], f64::from_bits(UNSET)),
    ]
}

#[test]
fn rings_that_are_not_sound() {
    for (times, previous) in unsound() {
        assert!(!sound_everywhere(&times, previous), "{times:?} {previous}");
    }
}

/// Refusals are unchanged: such a ring is taken apart, emitted and updated.
#[test]
fn other_calls_accept_a_ring_that_is_not_sound() {
    let (time, inputs) = (4f64.to_bits(), [2f64.to_bits(), 0, 0]);
    let calls: [Update; 2] = [model::update, model::tick];
    for (times, previous) in unsound() {
        let region = region(SLOTS - 1, &times, previous.to_bits());
        assert_eq!(model::decode(KIND, &SETTINGS, &region).refusal, 0);
        let emitted = model::emit(KIND, &SETTINGS, time, &inputs, &region);
        assert_eq!(emitted.refusal, 0, "{times:?} {previous}");
        let accept = |call: Update| call(KIND, &SETTINGS, time, &inputs, &mut region.clone());
        assert!(calls.iter().all(|call| accept(*call).refusal == 0));
    }
}

/// Words in free slots are no points, and a region that is refused is not sound.
#[test]
fn what_is_no_point_is_not_looked_at() {
    let free = |n: usize, word: f64| {
        let mut region = region(SLOTS - 1, &[1.0, 2.0], 3f64.to_bits());
        region[6 + n] = word.to_bits();
        model::sound(KIND, &SETTINGS, &region)
    };
    let words = [f64::NAN, f64::INFINITY, 0.0, 9.0];
    assert!(words.map(|word| free(1, word)).iter().all(|is| *is));
    assert!(words.map(|word| free(SLOTS - 2, word)).iter().all(|is| *is));
    assert!(words.map(|word| free(0, word)).iter().all(|is| !is));
    let sound = region(0, &[1.0], 3f64.to_bits());
    assert!(model::sound(KIND, &SETTINGS, &sound));
    assert!(!model::sound(KIND, &[f64::NAN.to_bits()], &sound), "2");
    assert!(!model::sound(KIND, &SETTINGS, &sound[1..]), "3");
    for (place, word) in [(2, UNSET - 1), (3, SLOTS as u64), (4, SLOTS as u64 + 1)] {
        let mut damaged = sound.clone();
        damaged[place] = word;
        assert!(!model::sound(KIND, &SETTINGS, &damaged), "6, word {place}");
    }
}

/// Of the other blocks sound is what decodes.
#[test]
fn sound_of_the_other_blocks() {
    let mut r = Rng::new(11, 0);
    for kind in Kind::ALL.into_iter().filter(|kind| *kind != KIND) {
        let mut seen = [0; 2];
        for _ in 0..500 {
            let s = inputs::settings(&mut r, kind);
            let region = inputs::region(&mut r, kind, &s);
            let sound = model::sound(kind, &s, &region);
            assert_eq!(sound, model::decode(kind, &s, &region).refusal == 0);
            seen[usize::from(sound)] += 1;
        }
        assert!(seen.iter().all(|count| *count > 0), "{kind:?}");
    }
}
