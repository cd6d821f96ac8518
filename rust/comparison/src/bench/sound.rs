//! The rings of which `oven_sound` is timed: full and sound, so that it looks at every slot. The published Rust has no sound.
use crate::Kind;
use crate::ring::{capacity, time_place};

pub struct SoundCase {
    pub name: &'static str,
    /// The window, which settles the number of slots.
    delta: f64,
    /// Whether the first point is in the middle slot, and not in slot 0.
    is_turned: bool,
}

/// All cases: the least ring and the largest.
#[must_use]
pub fn cases() -> Vec<SoundCase> {
    let case = |name, delta, is_turned| SoundCase {
        name,
        delta,
        is_turned,
    };
    vec![
        case("sound of 2052 points", 300.0, false),
        case("sound of 2052 points, turned", 300.0, true),
        case("sound of 131076 points", 65536.0, false),
        case("sound of 131076 points, turned", 65536.0, true),
    ]
}

impl SoundCase {
    #[must_use]
    pub fn settings(&self) -> Vec<u64> {
        vec![self.delta.to_bits()]
    }

    /// A point for each slot, a second apart, the last at the previous time.
    #[must_use]
    pub fn region(&self) -> Vec<u64> {
        let (_, length) = crate::model::state_length(Kind::MovingAverage, &self.settings());
        let mut region = vec![0; length];
        let points = capacity(&region);
        (region[3], region[4]) = (if self.is_turned { points / 2 } else { 0 }, points);
        for n in 0..points {
            let place = time_place(&region, n);
            region[place] = (n as f64).to_bits();
        }
        region[2] = region[time_place(&region, points - 1)];
        region
    }

    /// The same with the time of the last point above the previous time.
    #[must_use]
    pub fn unsound_region(&self) -> Vec<u64> {
        let mut region = self.region();
        let last = time_place(&region, region[4] - 1);
        region[last] += 1;
        region
    }
}

#[cfg(test)]
mod tests {
    use super::*;
    use crate::model;

    #[test]
    fn the_rings_are_full_and_sound_as_they_are_named() {
        for case in cases() {
            let (settings, region) = (case.settings(), case.region());
            assert!(case.name.contains(&format!("of {} points", region[4])));
            assert_eq!(region.len() as u64, 6 + 2 * region[4]);
            assert_eq!(region[3] > 0, case.name.ends_with("turned"));
            assert!(model::sound(Kind::MovingAverage, &settings, &region));
            let unsound = case.unsound_region();
            assert!(!model::sound(Kind::MovingAverage, &settings, &unsound));
        }
    }
}
