//! Document 01's controller: the recurrence, rounding by rounding.
use super::leaves::{UNSET, absolute, accumulate, filter, real_of, tick_dt, word_of};
use super::state::{flag, real};
use crate::Kind;

/// The places of a controller's words. One that it lacks has none.
struct Places {
    integrator: Option<usize>,
    previous_time: Option<usize>,
    filter: Option<usize>,
    previous_trigger: Option<usize>,
}

fn places(kind: Kind, s: &[u64]) -> Places {
    let (i, d) = (s[0] & 1 == 1, s[0] & 2 == 2);
    let time = usize::from(i);
    let last = 2 + usize::from(d);
    Places {
        integrator: i.then_some(0),
        previous_time: (i || d).then_some(time),
        filter: d.then_some(time + 1),
        previous_trigger: (i && kind == Kind::PidWithReset).then_some(last),
    }
}

/// k, ti, td, r, ni and nd are replaced by 100.0 * 1e-15 where smaller.
fn floored(word: u64) -> f64 {
    let least = 100.0 * 1e-15;
    if real_of(word) < least {
        least
    } else {
        real_of(word)
    }
}

/// The settings, floors applied.
pub struct Settings {
    k: f64,
    ti: f64,
    td: f64,
    r: f64,
    y_max: f64,
    y_min: f64,
    ni: f64,
    nd: f64,
    yd_start: f64,
    y_reset: f64,
    dir: f64,
}

/// The error, the sum yP + yD, the sum yU and the output y of one tick.
pub struct Terms {
    e: f64,
    pd: f64,
    sum: f64,
    pub y: f64,
}

impl Settings {
    #[must_use]
    pub fn of(s: &[u64]) -> Settings {
        Settings {
            k: floored(s[1]),
            ti: floored(s[2]),
            td: floored(s[3]),
            r: floored(s[4]),
            y_max: real_of(s[5]),
            y_min: real_of(s[6]),
            ni: floored(s[7]),
            nd: floored(s[8]),
            yd_start: real_of(s[10]),
            y_reset: real_of(s[11]),
            dir: if s[12] != 0 { 1.0 } else { -1.0 },
        }
    }

    fn error(&self, inputs: &[u64]) -> f64 {
        let difference = real_of(inputs[0]) - real_of(inputs[1]);
        (self.dir * difference) / self.r
    }

    /// yD of a controller with D; `filter` is none on the first tick.
    fn derivative(&self, e: f64, filter: Option<f64>) -> f64 {
        match filter {
            None => self.yd_start,
            Some(x) => ((self.k * self.td) / (self.td / self.nd)) * (e - x),
        }
    }

    /// The limits: NaN passes.
    fn limit(&self, sum: f64) -> f64 {
        if sum > self.y_max {
            self.y_max
        } else if sum < self.y_min {
            self.y_min
        } else {
            sum
        }
    }

    /// The terms of a tick with this yD of the error and this integrator, each 0.0 where lacking.
    pub fn terms(&self, inputs: &[u64], yd: impl Fn(f64) -> f64, integrator: f64) -> Terms {
        let e = self.error(inputs);
        let yp = self.k * e;
        let pd = yp + yd(e);
        let sum = pd + integrator;
        let y = self.limit(sum);
        Terms { e, pd, sum, y }
    }

    /// The integrator after a rising trigger.
    #[must_use]
    pub fn wiped(&self, at: &Terms) -> f64 {
        self.y_reset - at.pd
    }

    /// The integrator after any other tick.
    #[must_use]
    pub fn accumulated(&self, at: &Terms, integrator: f64, gap: f64) -> f64 {
        let back = (at.sum - at.y) / (self.k * self.ni);
        accumulate(integrator, (self.k / self.ti) * (at.e - back), gap)
    }

    /// The filter after a tick; `old` is none on the first tick.
    fn filtered(&self, e: f64, old: Option<f64>, gap: f64) -> f64 {
        let constant = self.td / self.nd;
        let x = match old {
            Some(x) => x,
            None if absolute(self.k * self.td) < 1e-15 => e,
            None => e - ((constant * self.yd_start) / (self.k * self.td)),
        };
        filter(x, e, constant, gap)
    }
}

/// The filter's stored value, none on the first tick.
fn stored_filter(p: &Places, region: &[u64]) -> Option<f64> {
    let first = p.previous_time.is_none_or(|n| region[n] == UNSET);
    p.filter.filter(|_| !first).map(|n| real_of(region[n]))
}

fn terms(kind: Kind, s: &[u64], inputs: &[u64], region: &[u64]) -> Terms {
    let p = places(kind, s);
    let settings = Settings::of(s);
    let integrator = p.integrator.map_or(0.0, |n| real_of(region[n]));
    let yd = |e| match p.filter {
        Some(_) => settings.derivative(e, stored_filter(&p, region)),
        None => 0.0,
    };
    settings.terms(inputs, yd, integrator)
}

pub(super) fn start(kind: Kind, s: &[u64], region: &mut [u64]) {
    if let Some(n) = places(kind, s).integrator {
        region[n] = s[9];
    }
}

/// Integrator, previous time, filter, previous trigger. One that the controller lacks is 0.0, unset or false.
pub(super) fn state(kind: Kind, s: &[u64], region: &[u64]) -> [u64; 6] {
    let p = places(kind, s);
    let word = |place: Option<usize>, lacking| place.map_or(lacking, |n| region[n]);
    let integrator = real(word(p.integrator, 0));
    let filter = real(word(p.filter, 0));
    let trigger = flag(word(p.previous_trigger, 0));
    let time = word(p.previous_time, UNSET);
    [integrator, time, filter, trigger, 0, 0]
}

pub(super) fn output(kind: Kind, s: &[u64], inputs: &[u64], region: &[u64]) -> f64 {
    terms(kind, s, inputs, region).y
}

pub(super) fn update(kind: Kind, s: &[u64], time: f64, inputs: &[u64], region: &mut [u64]) {
    let p = places(kind, s);
    let settings = Settings::of(s);
    let at = terms(kind, s, inputs, region);
    let gap = p.previous_time.map_or(0.0, |n| tick_dt(time, region[n]));
    let trigger = kind == Kind::PidWithReset && inputs[2] != 0;
    let rising = trigger && p.previous_trigger.map_or(0, |n| region[n]) == 0;
    let filter = stored_filter(&p, region);
    if let Some(n) = p.integrator {
        region[n] = word_of(if rising {
            settings.wiped(&at)
        } else {
            settings.accumulated(&at, real_of(region[n]), gap)
        });
    }
    if let Some(n) = p.previous_time {
        region[n] = word_of(time);
    }
    if let Some(n) = p.filter {
        region[n] = word_of(settings.filtered(at.e, filter, gap));
    }
    if let Some(n) = p.previous_trigger {
        region[n] = u64::from(trigger);
    }
}
