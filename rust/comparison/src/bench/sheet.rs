//! The sheets of the speed comparison: rows of the block cases, with a region and ticks, all prepared.
use super::Case;
use crate::sheet::{Row, Tick};

/// Sixteen rows that take turns.
pub struct SheetCase {
    pub name: &'static str,
    rows: Vec<Case>,
    /// Whether every row from the second on reads the row above: its first input is that row's first answer word.
    pub feeds: bool,
}

/// The rows of a sheet by the names of their cases.
fn sheet(name: &'static str, turns: &[&str]) -> SheetCase {
    let named = |turn: &&str| {
        let found = super::cases().into_iter().find(|case| case.name == *turn);
        found.expect("a case has this name")
    };
    SheetCase {
        name,
        rows: turns.iter().cycle().take(16).map(named).collect(),
        feeds: false,
    }
}

/// The same, with rows that feed rows.
fn fed(name: &'static str, turns: &[&str]) -> SheetCase {
    SheetCase {
        feeds: true,
        ..sheet(name, turns)
    }
}

/// All cases.
#[must_use]
pub fn cases() -> Vec<SheetCase> {
    let timers = ["TimerAccumulating", "TrueDelay", "TrueFalseHold"];
    let mix = [&["Pid PI"][..], &timers].concat();
    let others = [
        "PidWithReset PI",
        "MovingAverage 300 s",
        "TrueHoldWithReset",
        "LogicalVariablePulse",
    ];
    vec![
        sheet("sheet mix", &mix),
        sheet("sheet 16 PI", &["Pid PI"]),
        sheet("sheet all blocks", &[&mix[..], &others].concat()),
        fed("sheet mix, fed", &mix),
    ]
}

impl SheetCase {
    /// The rows: of a tick's eight words the first four are reals, and the others booleans.
    #[must_use]
    pub fn rows(&self) -> Vec<Row> {
        let row = |(n, case): (usize, &Case)| {
            let mut columns = [0; 3];
            for (i, item) in case.kind.inputs().bytes().enumerate() {
                let of_its_sort = (n + i) as u64 % 4;
                columns[i] = if item == b'r' {
                    of_its_sort
                } else {
                    4 + of_its_sort
                };
            }
            if self.feeds && n > 0 {
                columns[0] = 8 + 2 * (n as u64 - 1);
            }
            Row::new(case.kind, &case.settings, columns)
        };
        self.rows.iter().enumerate().map(row).collect()
    }

    /// Where each row's words stand in the region.
    #[must_use]
    pub fn stretches(&self) -> Vec<std::ops::Range<usize>> {
        let mut end = 0;
        let stretch = |case: &Case| {
            let begin = end;
            end += case.region().len();
            begin..end
        };
        self.rows.iter().map(stretch).collect()
    }

    /// The regions that the rows' own ticks before the measurement leave, end to end.
    #[must_use]
    pub fn region(&self) -> Vec<u64> {
        self.rows.iter().flat_map(Case::region).collect()
    }

    /// The ticks from this one after the warm-up on, one a second.
    #[must_use]
    pub fn ticks(&self, from: u64, count: u64) -> Vec<Tick> {
        let warm = self.rows.iter().map(|case| case.warm).max().unwrap_or(0);
        let from = warm + from;
        (from..from + count).map(tick).collect()
    }
}

/// Small reals, and booleans that change every few ticks: the words are the same again after `PERIOD` ticks.
fn tick(n: u64) -> Tick {
    let x = (n % 7) as f64 * 0.125;
    let mut words = [0; 8];
    for i in 0..4 {
        words[i] = (x + i as f64 * 0.25).to_bits();
        words[4 + i] = (n >> (2 + i)) & 1;
    }
    Tick {
        time: (n as f64).to_bits(),
        words,
    }
}

/// Ticks after which the words of a tick are the same again.
pub const PERIOD: u64 = 7 * 64;

#[cfg(test)]
mod tests {
    use super::*;
    use crate::model;

    #[test]
    fn every_tick_is_accepted() {
        for case in cases() {
            let (rows, mut region, mut answers) = (case.rows(), case.region(), [0; 32]);
            for tick in case.ticks(0, 1000) {
                let said = model::sheet::tick(&rows, &tick, &mut region, &mut answers);
                assert_eq!((said.refusal, said.warning), (0, false), "{}", case.name);
            }
        }
    }

    #[test]
    fn each_row_of_a_fed_sheet_reads_the_row_above() {
        let fed: Vec<_> = cases().into_iter().filter(|case| case.feeds).collect();
        assert!(!fed.is_empty());
        for rows in fed.iter().map(SheetCase::rows) {
            let feeding = |row: &Row| row.columns.into_iter().filter(|c| *c >= 8).collect();
            let columns: Vec<Vec<u64>> = rows.iter().map(feeding).collect();
            assert_eq!((columns.len(), columns[0].len()), (16, 0));
            assert!((1..16).all(|n| columns[n] == [8 + 2 * (n as u64 - 1)]));
        }
    }

    #[test]
    fn the_words_come_again() {
        assert!((0..900).all(|n| tick(n).words == tick(n + PERIOD).words));
    }
}
