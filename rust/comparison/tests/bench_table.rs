//! Document 01's bench table, P1 to P10, on the ported Rust and on the model alike.
//! (P11 is of the sheet, which the Rust does not have.)
use comparison::inputs::bench_controller;
use comparison::oracle::Oracle;
use comparison::{Answer, Kind, model};

const NAN: u64 = 0x7FF8_0000_0000_0000;

fn w(x: f64) -> u64 {
    x.to_bits()
}

/// The answers of a run from a fresh start, after seeing that model and Rust give the same.
fn run(kind: Kind, s: &[u64], ticks: &[(f64, [u64; 3])]) -> Vec<Answer> {
    let oracle = Oracle::new(kind, s);
    let mut theirs = oracle.started();
    let mut mine = vec![7; theirs.len()];
    assert_eq!(model::start(kind, s, &mut mine), 0);
    let mut answers = vec![];
    for (t, inputs) in ticks {
        let answer = model::emit(kind, s, w(*t), inputs, &mine);
        let updated = model::update(kind, s, w(*t), inputs, &mut mine);
        assert_eq!(updated.refusal, answer.refusal);
        if answer.refusal == 0 {
            assert_eq!(answer, oracle.emit(*t, inputs, &theirs));
            assert_eq!(updated, oracle.update(*t, inputs, &mut theirs));
        }
        assert_eq!(mine, theirs);
        answers.push(answer);
    }
    answers
}

fn reals(kind: Kind, s: &[u64], ticks: &[(f64, [u64; 3])]) -> Vec<f64> {
    let answers = run(kind, s, ticks);
    answers.iter().map(|a| f64::from_bits(a.real)).collect()
}

#[test]
fn p1_p2_true_delay() {
    let ticks = [(0.0, 1), (1.0, 0), (2.0, 1), (3.0, 1), (4.0, 1), (3.0, 1)];
    let answers = run(
        Kind::TrueDelay,
        &[w(2.0), 0],
        &ticks.map(|(t, u)| (t, [u, 0, 0])),
    );
    let got: Vec<(u64, bool)> = answers.iter().map(|a| (a.refusal, a.boolean)).collect();
    let due = [
        (0, true),
        (0, false),
        (0, false),
        (0, false),
        (0, true),
        (7, false),
    ];
    assert_eq!(got, due);
}

#[test]
fn p3_to_p6_controller() {
    let v = [w(0.5), w(0.25), 0];
    assert_eq!(
        reals(Kind::Pid, &bench_controller(0, 2.0, 0.0), &[(0.0, v)]),
        [0.5]
    );
    let pi = bench_controller(1, 1.0, 0.75);
    let got = reals(Kind::Pid, &pi, &[(0.0, v), (2.0, v), (3.0, v)]);
    assert_eq!(got, [0.25, 0.25, 1.0]);
    let rise = [v[0], v[1], 1];
    let ticks = [(0.0, v), (2.0, v), (3.0, rise), (4.0, rise)];
    assert_eq!(
        reals(Kind::PidWithReset, &pi, &ticks),
        [0.25, 0.25, 1.0, 0.75]
    );
    let answers = run(
        Kind::Pid,
        &bench_controller(0, 2.0, 0.0),
        &[(0.0, [NAN, v[1], 0])],
    );
    assert_eq!(answers[0].real, NAN);
}

#[test]
fn p7_p8_moving_average() {
    for (delta, length) in [(1024.0, 4110), (1024.5, 4114), (65536.0, 262158)] {
        let s = [w(delta)];
        assert_eq!(model::state_length(Kind::MovingAverage, &s), (0, length));
        assert_eq!(Oracle::new(Kind::MovingAverage, &s).state_length(), length);
    }
    let ticks = [0.0, 1.0, 2.0].map(|t| (t, [w(3.0), 0, 0]));
    let got = reals(Kind::MovingAverage, &[w(2.0)], &ticks);
    assert_eq!(got, [0.0, 3.0 / (1.0 + 1e-3), 3.0]);
}

#[test]
fn p9_p10_true_false_hold() {
    let ticks = [(0.0, 1), (1.0, 0), (2.0, 0)].map(|(t, u)| (t, [u, 0, 0]));
    let answers = run(Kind::TrueFalseHold, &[w(2.0), w(2.0)], &ticks);
    let got: Vec<bool> = answers.iter().map(|a| a.boolean).collect();
    assert_eq!(got, [true, true, false]);
    let bad = [0, 0, w(f64::INFINITY)];
    let emit = |t: f64| model::emit(Kind::TrueFalseHold, &[0, 0], w(t), &[0], &bad).refusal;
    assert_eq!((emit(f64::INFINITY), emit(0.0)), (5, 6));
}
