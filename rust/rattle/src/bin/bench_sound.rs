//! Asks `oven_sound` of a full sound ring, for tools/bench. There is no other side: the published Rust has no sound.
//!
//! - `bench_sound cases` names the cases.
//! - `bench_sound CASE points` prints how many points the ring has.
//! - `bench_sound CASE same` fails unless the ring is sound, and is not with its last point above the previous time.
//! - `bench_sound CASE sound N` asks N times, for a tool that counts instructions. What comes before is the same for every N.
//! - `bench_sound CASE sound ns` prints the nanoseconds of a point in the best of a hundred calls.
use std::time::Instant;

use comparison::Kind;
use comparison::bench::driver::asked;
use comparison::bench::sound::{SoundCase, cases};
use rattle::boundary;

fn is_sound(case: &SoundCase, region: &[u64]) -> bool {
    boundary::sound(Kind::MovingAverage as u64, &case.settings(), region) == 1
}

/// Asks so often, and counts the yes.
#[inline(never)]
fn sound(settings: &[u64], region: &[u64], calls: u64) -> u64 {
    let ask = |_| boundary::sound(Kind::MovingAverage as u64, settings, region);
    (0..calls).map(ask).sum()
}

fn nanoseconds(settings: &[u64], region: &[u64]) -> f64 {
    let timed = |_| {
        let began = Instant::now();
        assert_eq!(sound(settings, region, 1), 1);
        began.elapsed().as_nanos()
    };
    let best = (0..100).map(timed).min().expect("there are calls");
    best as f64 / region[4] as f64
}

fn main() {
    let Some((case, rest)) = asked(cases(), |case| case.name) else {
        return;
    };
    let (settings, region) = (case.settings(), case.region());
    match rest.iter().map(String::as_str).collect::<Vec<_>>()[..] {
        ["points"] => println!("{}", region[4]),
        ["sound", "ns"] => println!("{:.1}", nanoseconds(&settings, &region)),
        ["sound", calls] => {
            let calls = calls.parse().expect("a number of calls");
            assert_eq!(sound(&settings, &region, calls), calls);
        }
        _ => {
            assert!(is_sound(&case, &region), "{}: not sound", case.name);
            let unsound = case.unsound_region();
            assert!(!is_sound(&case, &unsound), "{}: sound", case.name);
        }
    }
}
