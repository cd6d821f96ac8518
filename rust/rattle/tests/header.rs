//! The numbers of include/oven.h are those of the proved library.
use std::collections::HashMap;

use comparison::inputs::{Rng, accepted_settings, bench_controller};
use comparison::sheet::{ROW_WORDS, Row, SETTINGS};
use comparison::sheets::{Fault, Sheet, plant};
use comparison::{Kind, TICK_WORDS};
use rattle::boundary::{ANSWER_WORDS, answer_column};
use rattle::{CALLS, SHEETS};

/// Each name that the header gives a number, by a define or in an enum.
fn numbers() -> HashMap<String, u64> {
    let path = concat!(env!("CARGO_MANIFEST_DIR"), "/../../include/oven.h");
    let text = std::fs::read_to_string(path).expect("the header is there");
    let spaced = text.replace([',', '='], " ").replace("#define", " ");
    let words: Vec<&str> = spaced.split_whitespace().collect();
    let pairs = words.windows(2).filter(|pair| pair[0].starts_with("OVEN_"));
    let numbers = pairs.filter_map(|pair| Some((pair[0].into(), pair[1].parse().ok()?)));
    numbers.collect()
}

/// A block's name as the header has it.
fn name(kind: Kind) -> String {
    let mut name = String::from("OVEN");
    for letter in kind.name().chars() {
        if letter.is_uppercase() {
            name.push('_');
        }
        name.push(letter.to_ascii_uppercase());
    }
    name
}

fn length(kind: Kind, s: &[u64]) -> u64 {
    (CALLS.state_length)(kind, s).1 as u64
}

#[test]
fn blocks_and_their_settings() {
    let numbers = numbers();
    for kind in Kind::ALL {
        assert_eq!(numbers[&name(kind)], kind as u64);
        let both = if kind.is_controller() {
            Kind::Pid
        } else {
            kind
        };
        let settings = numbers[&format!("{}_SETTINGS", name(both))];
        assert_eq!(settings, kind.settings().len() as u64, "{kind:?}");
    }
}

#[test]
fn lengths() {
    let numbers = numbers();
    for kind in [Kind::Pid, Kind::PidWithReset] {
        for (n, letters) in ["P", "PI", "PD", "PID"].into_iter().enumerate() {
            assert_eq!(numbers[&format!("OVEN_TYPE_{letters}")], n as u64);
            let due = length(kind, &bench_controller(n as u64, 1.0, 0.0));
            let name = format!("{}_{letters}_LENGTH", name(kind));
            assert_eq!(numbers[&name], due, "{name}");
        }
    }
    for (delta, which) in [
        (-1.0, "LEAST"),
        (1024.0, "LEAST"),
        (65536.0, "MOST"),
        (f64::MAX, "MOST"),
    ] {
        let due = length(Kind::MovingAverage, &[f64::to_bits(delta)]);
        assert_eq!(numbers[&format!("OVEN_MOVING_AVERAGE_{which}_LENGTH")], due);
    }
    for kind in Kind::ALL.into_iter().skip(3) {
        let due = length(kind, &accepted_settings(&mut Rng::new(1, 0), kind));
        assert_eq!(numbers[&format!("{}_LENGTH", name(kind))], due, "{kind:?}");
    }
}

/// A row's words are a controller's, at the places that the header names.
#[test]
fn rows() {
    let numbers = numbers();
    let number = |name: &str| numbers[&format!("OVEN_ROW_{name}")] as usize;
    assert_eq!((number("WORDS"), number("SETTINGS")), (ROW_WORDS, SETTINGS));
    let settings = bench_controller(3, 1.0, 0.0);
    let words = Row::new(Kind::PidWithReset, &settings, [5, 6, 7]).words(9);
    let places = ["BLOCK", "FIRST", "SECOND", "THIRD"].map(|name| words[number(name)]);
    assert_eq!(places, [1, 5, 6, 7]);
    assert_eq!(words[number("SETTINGS")..], settings);
    assert_eq!(words.len(), number("WORDS"));
}

/// How many rows and which columns the sheet takes: one row more gives 1, and so does a row's own word, of which the one before is taken.
#[test]
fn columns() {
    let numbers = numbers();
    let number = |name: &str| numbers[&format!("OVEN_{name}")];
    let [most, inputs, each] = ["SHEET_ROWS", "SHEET_INPUTS", "ROW_ANSWERS"].map(number);
    let [output, second] = ["OUTPUT", "SECOND_OUTPUT"].map(number);
    let refusal = |rows: u64, column: u64| {
        let mut sheet = vec![Row::new(Kind::TimerAccumulating, &[0], [0; 3]); rows as usize];
        sheet.last_mut().expect("a row").columns = [column; 3];
        let call = Sheet::new(sheet).tick(0, [0; 8]);
        assert_eq!(call.answers.len() as u64, each * rows);
        call.made(&SHEETS).answer.refusal
    };
    assert_eq!([most, most + 1].map(|rows| refusal(rows, 0)), [0, 1]);
    for row in 0..most {
        let own = [output, second].map(|word| answer_column(row, word));
        assert_eq!(own, [output, second].map(|word| inputs + each * row + word));
        assert_eq!(own.map(|column| refusal(row + 1, column)), [1, 1]);
        assert_eq!(refusal(row + 1, own[0] - 1), 0);
    }
}

#[test]
fn words_of_a_run() {
    let numbers = numbers();
    let words = ["TICK", "ANSWER"].map(|name| numbers[&format!("OVEN_{name}_WORDS")] as usize);
    assert_eq!(words, [TICK_WORDS, ANSWER_WORDS]);
}

/// What the header calls a refusal is what the sheet gives for its fault.
#[test]
fn refusals_of_a_sheet() {
    let numbers = numbers();
    for (name, number) in [
        ("BAD_SHEET", 1),
        ("BAD_SETTING", 2),
        ("BAD_LENGTH", 3),
        ("BAD_SPACE", 4),
        ("BAD_TIME", 5),
        ("BAD_STATE", 6),
        ("TIME_RUNS_BACK", 7),
        ("NO_BLOCK", 13),
    ] {
        assert_eq!(numbers[&format!("OVEN_{name}")], number);
        let hold = Row::new(Kind::TrueFalseHold, &[0, 0], [0; 3]);
        let mut call = Sheet::new(vec![hold]).tick(0, [0; 8]);
        let fault = Fault { number, row: 0 };
        plant(&mut Rng::new(1, number), &mut call, &[fault]);
        assert_eq!(call.made(&SHEETS).answer.refusal, number, "{name}");
    }
}
