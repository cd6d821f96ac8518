//! What `soak` must write: the examples, the stored sessions, and lines at the edge of the form.
use std::fs;
use std::path::{Path, PathBuf};

use comparison::soak::soak;
use comparison::{Kind, sessions};

fn root(folder: &str) -> PathBuf {
    Path::new(env!("CARGO_MANIFEST_DIR"))
        .join("../..")
        .join(folder)
}

/// The inputs in a folder.
fn inputs(folder: &str) -> Vec<PathBuf> {
    let entries = fs::read_dir(root(folder)).expect("there are examples");
    let paths = entries.map(|entry| entry.expect("an example").path());
    paths
        .filter(|path| path.extension().is_some_and(|e| e == "soak"))
        .collect()
}

#[test]
fn examples() {
    for folder in ["examples", "examples/oven_day"] {
        let inputs = inputs(folder);
        assert!(inputs.len() >= 4, "{} in {folder}", inputs.len());
        for path in inputs {
            let input = fs::read(&path).expect("an input");
            let due = fs::read_to_string(path.with_extension("expected")).expect("an output");
            assert_eq!(soak(&input), due, "{}", path.display());
        }
    }
}

#[test]
fn stored_sessions() {
    for kind in Kind::ALL {
        let path = root("vectors/soak").join(format!("{}.txt", kind.name()));
        let list = fs::read_to_string(path).expect("a stored list");
        let sessions = sessions::parse(&list);
        assert_eq!(sessions.len(), 60);
        for (input, due) in sessions {
            assert_eq!(soak(input.as_bytes()), due, "{input}");
        }
    }
}

/// How often the output of a variable pulse changes in what was written.
fn changes(said: &str) -> usize {
    let outputs: Vec<&str> = said.lines().filter(|line| line.len() == 1).collect();
    outputs.windows(2).filter(|pair| pair[0] != pair[1]).count()
}

/// Most of the stored sessions have ticks of a pulse that cycles, and a few have settings that are refused.
#[test]
fn stored_pulses_cycle() {
    let list = sessions::sessions(Kind::LogicalVariablePulse, 1);
    let sessions = sessions::parse(&list);
    let refused = sessions.iter().filter(|(_, said)| said == "refused 2\n");
    let cycling = sessions.iter().filter(|(_, said)| changes(said) >= 2);
    let (refused, cycling) = (refused.count(), cycling.count());
    assert!(
        (1..10).contains(&refused) && cycling >= 20,
        "{refused} {cycling}"
    );
    let long = soak(sessions::long(Kind::LogicalVariablePulse, 2000, 6, 1).as_bytes());
    assert!(changes(&long) > 200, "{}", changes(&long));
}

/// Of a long input's 2000 later lines more than 200 each are accepted, refused and bad.
#[test]
fn long_sessions() {
    let seeds = |kind| (1..=4).map(move |seed| (kind, seed));
    for (kind, seed) in Kind::ALL.into_iter().flat_map(seeds) {
        let said = soak(sessions::long(kind, 2000, 6, seed).as_bytes());
        assert_eq!(said.lines().count(), 2002);
        let refused = said.lines().filter(|line| line.starts_with("refused"));
        let (refused, bad) = (refused.count(), said.matches("bad").count());
        assert!(
            refused > 200 && bad > 200 && refused + bad < 1000,
            "{kind:?} {seed}"
        );
    }
}

/// What a first line gives, alone.
fn first(line: &str) -> String {
    soak(line.as_bytes())
}

#[test]
fn first_lines() {
    let none = "block MovingAverage\nticks 0 refused 0\n";
    assert_eq!(first("MovingAverage 4090000000000000"), none);
    assert_eq!(first("MovingAverage 4090000000000000\n"), none);
    // no line, an empty one, a finite delta above 1024, no number, form
    for bad in [
        "",
        "\n",
        "MovingAverage 4090000000000001",
        "MovingAverage 409000000000000a",
        "MovingAverage 409000000000000",
        "MovingAverage  4090000000000000",
        "MovingAverage 4090000000000000 ",
        "MovingAverage",
        "Movingaverage 4090000000000000",
        "TrueDelay 4000000000000000 2",
    ] {
        assert_eq!(first(bad), "bad\n", "{bad:?}");
    }
    assert_eq!(first("MovingAverage 7FF0000000000000"), "refused 2\n");
    assert_eq!(first("TrueDelay FFF8000000000000 0"), "refused 2\n");
}

#[test]
fn later_lines() {
    let one = "0000000000000000 1\n";
    let text = |line: &str| soak(format!("TrueDelay 0000000000000000 0\n{one}{line}").as_bytes());
    let bad = "block TrueDelay\n1\nbad\nticks 1 refused 0\n";
    for line in [
        "\n",
        "0000000000000000\n",
        "0000000000000000 1\r\n",
        " 0000000000000000 1",
    ] {
        assert_eq!(text(line), bad, "{line:?}");
    }
    let refused = "block TrueDelay\n1\nrefused 5\nticks 1 refused 1\n";
    assert_eq!(text("7FF0000000000000 1\n"), refused);
    let same = "block TrueDelay\n1\n0\nticks 2 refused 0\n";
    assert_eq!(text("8000000000000000 0"), same);
}

#[test]
fn the_longest_line() {
    // a controller's first line is the longest good one: it is below the limit, and one more is not
    let zeros = " 0000000000000000".repeat(11);
    let line = format!("PidWithReset PID{zeros} 0");
    assert_eq!(line.len(), 205);
    assert!(first(&line).starts_with("block PidWithReset\n"));
    assert_eq!(first(&format!("{line}{}", "0".repeat(51))), "bad\n");
}
