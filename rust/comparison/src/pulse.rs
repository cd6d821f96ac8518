//! A variable pulse as its settings and its region's words have it. The generators and the classes read it so; the model does not.
use crate::model::leaves::{UNSET, real_of};

/// A pulse whose words may be any.
#[derive(Clone, Copy)]
pub struct Pulse<'a> {
    settings: &'a [u64],
    region: &'a [u64],
}

/// The cycle of a tick: when it begins and when its true part ends, and how both came about.
#[derive(Clone, Copy)]
pub struct Cycle {
    /// How many periods lie between the anchor and the time, not cut.
    pub periods: f64,
    /// The whole periods in seconds, and these to six places.
    pub passed: f64,
    pub rounded: f64,
    pub begin: f64,
    pub end: f64,
}

impl<'a> Pulse<'a> {
    /// None if the region has not five words.
    #[must_use]
    pub fn of(settings: &'a [u64], region: &'a [u64]) -> Option<Pulse<'a>> {
        (region.len() == 5).then_some(Pulse { settings, region })
    }

    /// The period as it is set.
    #[must_use]
    pub fn period(&self) -> f64 {
        real_of(self.settings[0])
    }

    /// The least period that the minimum hold leaves.
    #[must_use]
    pub fn least(&self) -> f64 {
        self.hold() * 2.02
    }

    /// The period that the block goes by.
    #[must_use]
    pub fn adjusted(&self) -> f64 {
        self.period().max(self.least())
    }

    #[must_use]
    pub fn delta_u(&self) -> f64 {
        real_of(self.settings[1])
    }

    #[must_use]
    pub fn hold(&self) -> f64 {
        real_of(self.settings[2])
    }

    #[must_use]
    pub fn sampled(&self) -> f64 {
        real_of(self.region[0])
    }

    /// The stored start of the cycles.
    #[must_use]
    pub fn anchor(&self) -> f64 {
        real_of(self.region[1])
    }

    #[must_use]
    pub fn held(&self) -> bool {
        self.region[2] != 0
    }

    #[must_use]
    pub fn timer(&self) -> f64 {
        real_of(self.region[3])
    }

    /// The previous time, if it is set.
    #[must_use]
    pub fn previous(&self) -> Option<f64> {
        Some(self.region[4]).filter(|w| *w != UNSET).map(real_of)
    }

    /// Whether the cycles go on with this input: it is no first tick, and no change of width.
    #[must_use]
    pub fn goes_on(&self, u: f64) -> bool {
        let changed = (self.sampled() - u).abs() > self.delta_u();
        self.previous().is_some() && !changed
    }

    /// The cycle, counted from the anchor, that holds this time.
    #[must_use]
    pub fn cycle(&self, t: f64, u: f64) -> Cycle {
        let (anchor, period) = (self.anchor(), self.adjusted());
        let periods = (t - anchor) / period;
        let passed = periods.floor() * period;
        let begin = anchor + rounded(passed);
        Cycle {
            periods,
            passed,
            rounded: rounded(passed),
            begin,
            end: begin + u * period,
        }
    }
}

/// To six places, a half away from zero.
fn rounded(x: f64) -> f64 {
    if x > 0.0 {
        (x * 1e6 + 0.5).floor() / 1e6
    } else {
        (x * 1e6 - 0.5).ceil() / 1e6
    }
}
