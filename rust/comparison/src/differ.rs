//! The program that compares calls with the Rust: `CALLS SEED [[not] BLOCK]`, at least so many emits and updates of each block,
//! of one or of all but one, which may need another number. With fewer it fails.
use crate::compare::{self, compare};
use crate::tally::{Class, Tally, expected_classes};
use crate::{Calls, Kind};

/// Compares, prints what was met and found, and gives the exit status.
#[must_use]
pub fn run(subject: &Calls) -> i32 {
    let args: Vec<String> = std::env::args().skip(1).collect();
    let args: Vec<&str> = args.iter().map(String::as_str).collect();
    let number = |n: usize| args.get(n).and_then(|a| a.parse::<u64>().ok());
    let kinds = chosen(&Kind::ALL, args.get(2..).unwrap_or(&[]));
    let (Some(least), Some(seed), false) = (number(0), number(1), kinds.is_empty()) else {
        eprintln!("usage: CALLS SEED [[not] BLOCK]");
        return 2;
    };
    let mut passed = 0;
    for &kind in &kinds {
        let tally = compare(subject, kind, least.div_ceil(compare::CALLS), seed);
        println!("{} met {}", kind.name(), tally.line());
        println!("compared: {:20} {}", kind.name(), counts(&tally));
        let enough = tally.calls() >= least.max(1);
        if !enough {
            println!("{} TOO FEW: {least} calls were due", kind.name());
        }
        let held = tally.report(&kind.name(), &expected_classes(kind));
        passed += usize::from(held && enough);
    }
    println!("{passed} passed, {} failed", kinds.len() - passed);
    i32::from(passed < kinds.len())
}

/// How many calls of each sort were compared. Beside each update stands a whole tick.
fn counts(tally: &Tally) -> String {
    let decoded: u64 = [0, 2, 3, 6]
        .map(|n| tally.count(Class::Decoded(n)))
        .iter()
        .sum();
    format!(
        "{} emits and updates, {} whole ticks, {} runs, {decoded} sound and decoded",
        tally.calls(),
        tally.calls() / 2,
        tally.count(Class::Run),
    )
}

/// All blocks, the one of a name, or all but that one; none if no block has the name.
fn chosen(blocks: &[Kind], choice: &[&str]) -> Vec<Kind> {
    let named = |name: &str| blocks.iter().find(|kind| kind.name() == name);
    match choice {
        [] => blocks.to_vec(),
        [name] => named(name).copied().into_iter().collect(),
        ["not", name] if named(name).is_some() => {
            let others = blocks.iter().filter(|kind| kind.name() != *name);
            others.copied().collect()
        }
        _ => vec![],
    }
}

#[cfg(test)]
mod tests {
    use super::*;

    const THREE: [Kind; 3] = [Kind::Pid, Kind::TrueDelay, Kind::MovingAverage];

    #[test]
    fn a_block_and_the_others_are_all() {
        assert_eq!(chosen(&THREE, &[]), THREE);
        assert_eq!(chosen(&THREE, &["TrueDelay"]), [Kind::TrueDelay]);
        assert_eq!(
            chosen(&THREE, &["not", "TrueDelay"]),
            [Kind::Pid, Kind::MovingAverage]
        );
    }

    #[test]
    fn a_choice_that_names_nothing_is_empty() {
        for choice in [&["Timer"][..], &["not"], &["not", "Timer"], &["Pid", "Pid"]] {
            assert_eq!(chosen(&THREE, choice), []);
        }
    }
}
