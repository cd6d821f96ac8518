//! What both sides of a speed comparison run: cases with settings, a region and ticks, all prepared; and the published side.
pub mod driver;
pub mod published_sheet;
pub mod sheet;
pub mod sound;

use crate::inputs::bench_controller;
use crate::oracle::{Oracle, values};
use crate::{Kind, TickWords};
use Kind::*;
use oce_blocks::{Block, Ctx, NoopDiagnostics, access};
use oce_model::Value;

pub struct Case {
    pub name: &'static str,
    pub kind: Kind,
    pub settings: Vec<u64>,
    /// Ticks a second.
    rate: f64,
    /// Ticks before the measurement, from a fresh start.
    warm: u64,
    /// If not 0: emits alone, this many seconds after the last tick, in the place of ticks.
    ahead: f64,
}

fn case(name: &'static str, kind: Kind, settings: &[f64]) -> Case {
    Case {
        name,
        kind,
        settings: settings.iter().map(|x| x.to_bits()).collect(),
        rate: 1.0,
        warm: 10,
        ahead: 0.0,
    }
}

fn controller(name: &'static str, kind: Kind, mode: u64) -> Case {
    Case {
        settings: bench_controller(mode, 1.0, 0.0),
        ..case(name, kind, &[])
    }
}

/// A moving average that has run for two windows.
fn average(name: &'static str, delta: f64, rate: f64) -> Case {
    Case {
        rate,
        warm: (2.0 * delta * rate) as u64 + 100,
        ..case(name, MovingAverage, &[delta])
    }
}

/// An emit whose window starts nine tenths of a window past the first point of the ring.
fn walk(name: &'static str, delta: f64, rate: f64) -> Case {
    Case {
        ahead: delta * 0.9,
        ..average(name, delta, rate)
    }
}

/// All cases.
#[must_use]
pub fn cases() -> Vec<Case> {
    let mut delay = case("TrueDelay", TrueDelay, &[2.0]);
    delay.settings.push(0);
    vec![
        controller("Pid P", Pid, 0),
        controller("Pid PI", Pid, 1),
        controller("Pid PD", Pid, 2),
        controller("Pid PID", Pid, 3),
        controller("PidWithReset P", PidWithReset, 0),
        controller("PidWithReset PI", PidWithReset, 1),
        controller("PidWithReset PD", PidWithReset, 2),
        controller("PidWithReset PID", PidWithReset, 3),
        average("MovingAverage 300 s", 300.0, 1.0),
        average("MovingAverage 3600 s", 3600.0, 1.0),
        average("MovingAverage 65536 s", 65536.0, 1.0),
        average("MovingAverage 65536 s, 2 ticks/s", 65536.0, 2.0),
        case("TimerAccumulating", TimerAccumulating, &[5.0]),
        delay,
        case("TrueFalseHold", TrueFalseHold, &[2.0, 2.0]),
        case("TrueHoldWithReset", TrueHoldWithReset, &[2.0]),
        case(
            "LogicalVariablePulse",
            LogicalVariablePulse,
            &[10.0, 0.05, 1.0],
        ),
        walk("walk of 300 s", 300.0, 1.0),
        walk("walk of 3600 s", 3600.0, 1.0),
        walk("walk of 65536 s", 65536.0, 1.0),
    ]
}

impl Case {
    /// The inputs of tick n: small reals, and booleans that change every few ticks. A duty ratio is 0.3, and every other minute 0.6.
    fn inputs(&self, n: u64) -> [u64; 3] {
        let x = match self.kind {
            LogicalVariablePulse => [0.3, 0.6][(n / 60 % 2) as usize],
            _ => (n % 7) as f64 * 0.125,
        };
        let mut inputs = [0; 3];
        for (i, item) in self.kind.inputs().bytes().enumerate() {
            inputs[i] = match item {
                b'r' => (x + i as f64 * 0.25).to_bits(),
                _ => (n >> (2 + 2 * i)) & 1,
            };
        }
        inputs
    }

    fn time(&self, n: u64) -> f64 {
        n as f64 / self.rate
    }

    /// The region that the ticks before the measurement leave.
    #[must_use]
    pub fn region(&self) -> Vec<u64> {
        let oracle = Oracle::new(self.kind, &self.settings);
        let mut region = oracle.started();
        if self.kind == MovingAverage {
            self.put_points(&mut region);
        } else {
            for n in 0..self.warm {
                oracle.update(self.time(n), &self.inputs(n), &mut region);
            }
        }
        region
    }

    /// Writes what the ticks of a moving average leave, a point for each: they are far apart. A tool that logs each
    /// instruction cannot wait for the ticks.
    fn put_points(&self, region: &mut [u64]) {
        let (delta, capacity) = (f64::from_bits(self.settings[0]), (region.len() - 6) / 2);
        let (mut mu, mut previous) = (0.0, 0.0);
        for n in 0..self.warm {
            let (t, u) = (self.time(n), f64::from_bits(self.inputs(n)[0]));
            mu += u * (t - previous);
            let slot = n as usize % capacity;
            (region[6 + slot], region[6 + capacity + slot]) = (t.to_bits(), mu.to_bits());
            previous = t;
        }
        let first = ((previous - delta) * self.rate) as u64;
        (region[0], region[2]) = (mu.to_bits(), previous.to_bits());
        (region[3], region[4]) = (first % capacity as u64, self.warm - first);
    }

    /// A walk is an emit alone.
    #[must_use]
    pub fn is_walk(&self) -> bool {
        self.ahead > 0.0
    }

    /// The ticks from this one after the warm-up on, or the emits of a walk: time and inputs.
    #[must_use]
    pub fn ticks(&self, from: u64, count: u64) -> Vec<TickWords> {
        let tick = |n| {
            let time = if self.is_walk() {
                self.time(self.warm) + self.ahead
            } else {
                self.time(n)
            };
            let [first, second, third] = self.inputs(n);
            [time.to_bits(), first, second, third]
        };
        let from = self.warm + from;
        (from..from + count).map(tick).collect()
    }
}

/// A published block with its region.
pub struct Published {
    kind: Kind,
    block: Box<dyn Block>,
    region: Vec<u64>,
}

/// A tick as the Rust takes it, and the outputs that it stores.
#[derive(Clone, Copy)]
pub struct Prepared {
    time: f64,
    inputs: [Value; 3],
    outputs: [Value; 2],
}

impl Prepared {
    /// The outputs that are stored, as words: the real one, and the boolean one.
    #[must_use]
    pub fn answer(&self) -> [u64; 2] {
        let mut words = [0; 2];
        for output in self.outputs {
            match output {
                Value::Real(y) => words[0] = y.to_bits(),
                Value::Boolean(y) => words[1] |= u64::from(y),
                Value::Integer(_) => unreachable!("no ported block has an integer output"),
            }
        }
        words
    }
}

impl Published {
    #[must_use]
    pub fn new(case: &Case) -> Published {
        Published {
            kind: case.kind,
            block: access::block(case.kind, &case.settings),
            region: case.region(),
        }
    }

    #[must_use]
    pub fn prepared(&self, ticks: &[TickWords]) -> Vec<Prepared> {
        let prepared = |[time, inputs @ ..]: &TickWords| Prepared {
            time: f64::from_bits(*time),
            inputs: values(self.kind, inputs).0,
            outputs: [Value::Boolean(false); 2],
        };
        ticks.iter().map(prepared).collect()
    }

    /// An emit of each tick, and its update unless they are walks.
    #[inline(never)]
    pub fn run<const WALKS: bool>(&mut self, ticks: &mut [Prepared]) {
        let count = self.kind.inputs().len();
        for tick in ticks {
            let ctx = Ctx::new(tick.time, &NoopDiagnostics);
            let (inputs, outputs) = (&tick.inputs[..count], &mut tick.outputs);
            let mut keep = |n: usize, y| outputs[n] = y;
            self.block
                .emit_from_state(&ctx, inputs, &self.region, &mut keep);
            if !WALKS {
                self.block.update_state(&ctx, inputs, &mut self.region);
            }
        }
    }
}

#[cfg(test)]
mod tests {
    use super::*;

    #[test]
    fn an_average_has_the_points_of_its_ticks() {
        let averages = cases().into_iter().filter(|c| c.kind == MovingAverage);
        for case in averages {
            let oracle = Oracle::new(case.kind, &case.settings);
            let mut region = oracle.started();
            for n in 0..case.warm {
                let updated = oracle.update(case.time(n), &case.inputs(n), &mut region);
                assert!(!updated.warning);
            }
            assert!(case.region() == region, "{}", case.name);
        }
    }
}
