//! A moving average's ring as its region's words have it. The generators and the classes read it so; the model does not.
use crate::model::leaves::{UNSET, real_of};

/// The place of the time at position n, whatever the head.
#[must_use]
pub fn time_place(region: &[u64], n: u64) -> usize {
    let capacity = capacity(region);
    6 + ((region[3] % capacity + n) % capacity) as usize
}

/// How many slots a region's ring has.
#[must_use]
pub fn capacity(region: &[u64]) -> u64 {
    (region.len() as u64 - 6) / 2
}

/// The ring of a region, whose words may be any.
#[derive(Clone, Copy)]
pub struct Ring<'a> {
    /// The window, not below its least.
    pub delta: f64,
    region: &'a [u64],
}

impl<'a> Ring<'a> {
    /// None if the region is too short for one.
    #[must_use]
    pub fn of(s: &[u64], region: &'a [u64]) -> Option<Ring<'a>> {
        let delta = real_of(s[0]).max(1e-5);
        (region.len() >= 16).then_some(Ring { delta, region })
    }

    #[must_use]
    pub fn capacity(&self) -> u64 {
        capacity(self.region)
    }

    #[must_use]
    pub fn resolution(&self) -> f64 {
        self.delta / (self.capacity() - 4) as f64
    }

    #[must_use]
    pub fn start(&self) -> f64 {
        real_of(self.region[1])
    }

    /// The previous time, if it is set.
    #[must_use]
    pub fn previous(&self) -> Option<f64> {
        Some(self.region[2]).filter(|w| *w != UNSET).map(real_of)
    }

    #[must_use]
    pub fn head(&self) -> u64 {
        self.region[3]
    }

    #[must_use]
    pub fn count(&self) -> u64 {
        self.region[4]
    }

    /// The coalesced word.
    #[must_use]
    pub fn coalesced(&self) -> u64 {
        self.region[5]
    }

    /// The word of the time at position n.
    #[must_use]
    pub fn time_word(&self, n: u64) -> u64 {
        self.region[time_place(self.region, n)]
    }

    #[must_use]
    pub fn time(&self, n: u64) -> f64 {
        real_of(self.time_word(n))
    }
}
