//! Document 01's moving average and its ring.
//! Words: integral, start time, previous time, head, count, coalesced, ring times, ring integrals.
use super::leaves::{UNSET, accumulate, ceil, is_finite, real_of, tick_dt, word_of};

/// The ring of one delta.
pub(super) struct Ring {
    delta: f64,
    pub(super) capacity: u64,
    resolution: f64,
}

impl Ring {
    pub(super) fn of(s: &[u64]) -> Ring {
        let delta = if real_of(s[0]) < 1e-5 {
            1e-5
        } else {
            real_of(s[0])
        };
        let whole = 2.0 * ceil(delta);
        let slots = if whole >= 131072.0 {
            131072
        } else if whole <= 2048.0 {
            2048
        } else {
            whole as u64
        };
        Ring {
            delta,
            capacity: slots + 4,
            resolution: delta / slots as f64,
        }
    }

    /// The place of the time at position n of the ring.
    fn time_place(&self, region: &[u64], n: u64) -> usize {
        6 + ((region[3] + n) % self.capacity) as usize
    }

    fn time(&self, region: &[u64], n: u64) -> u64 {
        region[self.time_place(region, n)]
    }

    /// Time and integral at position n.
    fn point(&self, region: &[u64], n: u64) -> (f64, f64) {
        let place = self.time_place(region, n);
        let integral = region[place + self.capacity as usize];
        (real_of(region[place]), real_of(integral))
    }

    fn put(&self, region: &mut [u64], n: u64, time: f64, integral: f64) {
        let place = self.time_place(region, n);
        region[place] = word_of(time);
        region[place + self.capacity as usize] = word_of(integral);
    }

    /// Document 02, request 2: the times at positions below the count are finite, none is below the one before and none above the
    /// previous time; while that is unset the count is 0.
    pub(super) fn is_sound(&self, region: &[u64]) -> bool {
        let (previous, count) = (region[2], region[4]);
        let times: Vec<u64> = (0..count).map(|n| self.time(region, n)).collect();
        let below = |a: u64, b: u64| real_of(a) < real_of(b);
        times.iter().all(|t| is_finite(*t))
            && times.windows(2).all(|pair| !below(pair[1], pair[0]))
            && times.iter().all(|t| !below(previous, *t))
            && (count == 0 || previous != UNSET)
    }

    /// Drops the first point while the second lies at or before the window's start.
    fn prune(&self, region: &mut [u64], time: f64) {
        while region[4] > 1 && real_of(self.time(region, 1)) <= time - self.delta {
            region[3] = (region[3] + 1) % self.capacity;
            region[4] -= 1;
        }
    }

    /// Whether a point at this time takes the place of the last one although the times differ.
    fn coalesces(&self, region: &[u64], time: f64) -> bool {
        let count = region[4];
        let close =
            count >= 2 && time - real_of(self.time(region, count - 2)) < 2.0 * self.resolution;
        close || count >= self.capacity
    }

    /// Stores a point; says whether this call turned the coalesced word from 0 to 1.
    fn store(&self, region: &mut [u64], time: f64, integral: f64) -> bool {
        let count = region[4];
        if count > 0 && self.time(region, count - 1) == word_of(time) {
            self.put(region, count - 1, time, integral);
            return false;
        }
        if self.coalesces(region, time) {
            let warning = region[5] == 0;
            if warning {
                region[5] = 1;
            }
            self.put(region, count - 1, time, integral);
            return warning;
        }
        self.put(region, count, time, integral);
        region[4] = count + 1;
        false
    }

    /// The integral at the target: at the first point at or before which it lies, then linear.
    fn integral_at(&self, region: &[u64], target: f64, now: (f64, f64)) -> f64 {
        let count = region[4];
        let point = |n| self.point(region, n);
        match (0..count).find(|n| target <= point(*n).0) {
            Some(0) => point(0).1,
            Some(n) => interpolate(point(n - 1), point(n), target),
            None if count == 0 => now.1,
            None => interpolate(point(count - 1), now, target),
        }
    }
}

/// The line through two points of time and integral, at the target.
fn interpolate(a: (f64, f64), b: (f64, f64), target: f64) -> f64 {
    let den = b.0 - a.0;
    if den == 0.0 {
        b.1
    } else {
        a.1 + ((b.1 - a.1) * ((target - a.0) / den))
    }
}

/// mu: the integral with this tick's input.
fn integral(time: f64, u: f64, region: &[u64]) -> f64 {
    accumulate(real_of(region[0]), u, tick_dt(time, region[2]))
}

pub(super) fn output(s: &[u64], time: f64, u: f64, region: &[u64]) -> f64 {
    let ring = Ring::of(s);
    let mu = integral(time, u, region);
    let first = region[2] == UNSET;
    let start = if first { time } else { real_of(region[1]) };
    let before = ring.integral_at(region, time - ring.delta, (time, mu));
    let d = if time >= start + ring.delta {
        ring.delta
    } else {
        (time - start) + 1e-3
    };
    (mu - before) / d
}

/// Writes the next words; says whether it warned.
pub(super) fn update(s: &[u64], time: f64, u: f64, region: &mut [u64]) -> bool {
    let ring = Ring::of(s);
    let mu = integral(time, u, region);
    if region[2] == UNSET {
        region[1] = word_of(time);
    }
    ring.prune(region, time);
    let warning = ring.store(region, time, mu);
    region[0] = word_of(mu);
    region[2] = word_of(time);
    warning
}
