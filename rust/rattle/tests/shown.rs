//! What docs/TIMERS.md, docs/PULSE.md, docs/CONTROLLER.md, docs/MOVING-AVERAGE.md and docs/SHEET.md show is what the proved library gives.
use comparison::Kind;
use comparison::inputs::bench_controller;
use comparison::sheet::{Row, words_of};
use rattle::boundary::answer_column;
use rattle::shown::EXAMPLES;
use rattle::{CALLS, bench_rows, guarded, run, shown_pulse, shown_sheet};

fn page(name: &str) -> String {
    let folder = concat!(env!("CARGO_MANIFEST_DIR"), "/../../docs/");
    std::fs::read_to_string(format!("{folder}{name}")).expect("the page is there")
}

#[test]
fn the_timers_page_shows_the_runs() {
    let page = page("TIMERS.md");
    for example in EXAMPLES {
        assert!(page.contains(&example.text()), "{}", example.text());
    }
}

#[test]
fn the_pulses_page_shows_the_run() {
    let text = shown_pulse::text();
    assert!(text.lines().all(|line| line.chars().count() <= 130));
    assert!(page("PULSE.md").contains(&text), "{text}");
}

#[test]
fn the_controllers_page_shows_the_bench_rows() {
    let table = bench_rows::table();
    assert!(page("CONTROLLER.md").contains(&table), "{table}");
}

#[test]
fn the_sheets_page_shows_the_run() {
    let table = shown_sheet::table();
    assert!(page("SHEET.md").contains(&table), "{table}");
}

/// A controller at its limit, -0.0; a delay that reads this answer passes true on at once; to a controller true is 5e-324.
#[test]
fn the_sheets_page_says_how_words_are_handed_on() {
    let page = page("SHEET.md");
    assert!(page.contains("-0.0 is true") && page.contains("5e-324"));
    let (one, mut limited) = (1f64.to_bits(), bench_controller(0, 1.0, 0.0));
    limited[5] = (-0.0f64).to_bits();
    let rows = words_of(&[
        Row::new(Kind::Pid, &limited, [0, 1, 0]),
        Row::new(Kind::TrueDelay, &[one, 0], [answer_column(0, 0), 0, 0]),
        Row::new(
            Kind::Pid,
            &bench_controller(0, 1.0, 0.0),
            [answer_column(1, 0), 1, 0],
        ),
    ]);
    let (mut region, mut answers) = ([0; 4], [9; 6]);
    let words = [one, 0, 0, 0, 0, 0, 0, 0];
    assert_eq!(guarded::sheet_start(&rows, &mut region).refusal, 0);
    let said = guarded::sheet_tick(&rows, 0, &words, &mut region, &mut answers);
    assert_eq!(said.refusal, 0);
    let due = [(-0.0f64).to_bits(), 0, 1, 0, 5e-324f64.to_bits(), 0];
    assert_eq!(answers, due);
}

/// Delta, and time and input of each tick: row P8 and one tick more, then ticks that come too close.
const AVERAGES: [(f64, &[(f64, f64)]); 2] = [
    (2.0, &[(0.0, 3.0), (1.0, 3.0), (2.0, 3.0), (4.0, 5.0)]),
    (
        1024.0,
        &[
            (-0.0, 20.0),
            (0.0, 20.0),
            (0.4, 20.0),
            (0.8, 30.0),
            (1.2, 20.0),
            (1.6, 40.0),
            (1.6, 50.0),
        ],
    ),
];

/// A tick's row as far as its answer and the words ahead of the ring go: time, input, output, head, count, word 5, warning.
#[test]
fn the_averages_page_shows_the_runs() {
    let page = page("MOVING-AVERAGE.md");
    for (delta, ticks) in AVERAGES {
        let words = ticks.iter().map(|(t, u)| (*t, [u.to_bits(), 0, 0]));
        let left = run(
            Kind::MovingAverage,
            &[delta.to_bits()],
            &words.collect::<Vec<_>>(),
        );
        for ((t, u), (answer, w)) in ticks.iter().zip(left) {
            let warns = if answer.warning { "yes" } else { "no" };
            let y = f64::from_bits(answer.real);
            let row = format!(
                "| {t} | {u} | {y:?} | {} | {} | {} | {warns} |",
                w[3], w[4], w[5]
            );
            assert!(page.contains(&row), "{row}");
        }
    }
}

/// The lengths of row P7 among them.
#[test]
fn the_averages_page_shows_the_sizes() {
    let page = page("MOVING-AVERAGE.md");
    for delta in [2.0f64, 1024.0, 1024.5, 3600.0, 65536.0, 100_000.0] {
        let (_, length) = (CALLS.state_length)(Kind::MovingAverage, &[delta.to_bits()]);
        let capacity = (length - 6) / 2;
        let row = format!("| {delta} | {} | {capacity} | {length} |", capacity - 4);
        assert!(page.contains(&row), "{row}");
    }
}
