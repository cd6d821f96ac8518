//! The inputs of docs/DIFFERENCES.md: what the Rust does where the port does otherwise, and that the
//! model of document 01 refuses them, or stores the canonical NaN.
use std::panic::{AssertUnwindSafe, catch_unwind};

use comparison::{Kind, model};
use oce_blocks::{Ctx, NoopDiagnostics, access};
use oce_model::Value;

const INF: f64 = f64::INFINITY;
const NAN: u64 = 0x7FF8_0000_0000_0000;

fn w(x: f64) -> u64 {
    x.to_bits()
}

/// An emit's last output and the words after an update, by the Rust alone: nothing made canonical.
fn raw(
    kind: Kind,
    s: &[u64],
    time: f64,
    inputs: &[Value],
    region: &[u64],
) -> (Option<Value>, Vec<u64>) {
    let block = access::block(kind, s);
    let ctx = Ctx::new(time, &NoopDiagnostics);
    let (mut out, mut after) = (None, region.to_vec());
    block.emit_from_state(&ctx, inputs, region, &mut |_, value| out = Some(value));
    block.update_state(&ctx, inputs, &mut after);
    (out, after)
}

fn refused(kind: Kind, s: &[u64], time: f64, region: &[u64]) -> u64 {
    model::refusal(kind, s, region, Some(w(time)))
}

const TRUE: Option<Value> = Some(Value::Boolean(true));
const FALSE: Option<Value> = Some(Value::Boolean(false));
const LOW: [Value; 1] = [Value::Boolean(false)];

#[test]
fn nans_are_stored_as_they_come() {
    let region = [0x7FF4_0000_0000_1234, 0, 0, 0, 0];
    let inputs = [Value::Boolean(false); 2];
    let (_, after) = raw(Kind::TimerAccumulating, &[w(5.0)], 1.0, &inputs, &region);
    assert_eq!(after[0], region[0]);
    let mut mine = region;
    model::update(
        Kind::TimerAccumulating,
        &[w(5.0)],
        w(1.0),
        &[0; 3],
        &mut mine,
    );
    assert_eq!(mine[0], NAN);

    let (kind, s) = (Kind::MovingAverage, [w(2.0)]);
    let mut region = vec![0; model::state_length(kind, &s).1];
    region[0] = w(INF);
    let (_, after) = raw(kind, &s, 1.0, &[Value::Real(-INF)], &region);
    assert!(f64::from_bits(after[0]).is_nan());
    model::update(kind, &s, w(1.0), &[w(-INF), 0, 0], &mut region);
    assert_eq!(region[0], NAN);
}

#[test]
fn settings_that_are_not_finite() {
    let (kind, s) = (Kind::TrueHoldWithReset, [w(INF)]);
    let region = [1, 0, 0];
    assert_eq!(refused(kind, &s, 1e9, &region), 2);
    assert_eq!(raw(kind, &s, 1e9, &[LOW[0]; 2], &region).0, TRUE);

    let mut s = [w(1.0); 13];
    (s[0], s[1], s[6]) = (0, NAN, 0);
    let inputs = [Value::Real(0.5), Value::Real(0.25)];
    assert_eq!(refused(Kind::Pid, &s, 0.0, &[]), 2);
    let due = f64::from_bits(0x3D1C_25C2_6849_7682);
    assert_eq!(
        raw(Kind::Pid, &s, 0.0, &inputs, &[]).0,
        Some(Value::Real(due))
    );

    assert_eq!(model::state_length(Kind::MovingAverage, &[NAN]).0, 2);
    let [of_nan, of_least] = [NAN, w(1e-5)].map(|delta| {
        let region = [vec![0, 0, u64::MAX], vec![0; 4107]].concat();
        raw(
            Kind::MovingAverage,
            &[delta],
            1.0,
            &[Value::Real(3.0)],
            &region,
        )
    });
    assert_eq!(of_nan, of_least);
}

/// A change of 0.006 is one to a pulse with a `delta_u` of 0.005, and half a second ends its minimum hold.
#[test]
fn settings_outside_the_limits_of_a_pulse() {
    let (kind, region) = (Kind::LogicalVariablePulse, [w(0.5), 0, 1, 0, 0]);
    let s = [w(10.0), w(0.005), w(1.0)];
    assert_eq!(refused(kind, &s, 1.0, &region), 2);
    let after = raw(kind, &s, 1.0, &[Value::Real(0.506)], &region).1;
    assert_eq!([after[0], after[1]], [w(0.506), w(1.0)]);

    let s = [w(10.0), w(0.01), w(0.5)];
    assert_eq!(refused(kind, &s, 0.5, &region), 2);
    assert_eq!(raw(kind, &s, 0.5, &[Value::Real(0.0)], &region).0, FALSE);

    let s = [w(INF), w(0.01), w(1.0)];
    assert_eq!(refused(kind, &s, 2.5, &region), 2);
    let (out, after) = raw(kind, &s, 2.5, &[Value::Real(0.5)], &region);
    assert_eq!((out, after[2]), (TRUE, 1), "a period of 2.02");
}

#[test]
fn regions_of_a_wrong_length() {
    let (kind, s) = (Kind::TrueFalseHold, [w(2.0), w(2.0)]);
    assert_eq!(refused(kind, &s, 1.0, &[0; 2]), 3);
    let short = catch_unwind(AssertUnwindSafe(|| raw(kind, &s, 1.0, &LOW, &[0; 2])));
    assert!(short.is_err());
    assert_eq!(refused(kind, &s, 1.0, &[0, 0, 0, 7]), 3);
    assert_eq!(raw(kind, &s, 1.0, &LOW, &[0, 0, 0, 7]).1[3], 7);
}

#[test]
fn times_that_are_not_finite() {
    let (kind, s, region) = (Kind::TrueFalseHold, [w(2.0), w(2.0)], [1, 0, 0]);
    assert_eq!(refused(kind, &s, INF, &region), 5);
    assert_eq!(raw(kind, &s, INF, &LOW, &region).0, FALSE);
    assert_eq!(refused(kind, &s, f64::NAN, &region), 5);
    let stored = raw(kind, &s, f64::NAN, &LOW, &region).1[2];
    assert!(f64::from_bits(stored).is_nan());
}

#[test]
fn regions_that_do_not_decode() {
    let (kind, s, region) = (
        Kind::TrueFalseHold,
        [w(2.0), w(2.0)],
        [1, 0, w(f64::NEG_INFINITY)],
    );
    assert_eq!(refused(kind, &s, 1.0, &region), 6);
    assert_eq!(raw(kind, &s, 1.0, &LOW, &region).0, FALSE);

    let (kind, s) = (Kind::MovingAverage, [w(2.0)]);
    for (place, word) in [(3, 2052), (4, 2053)] {
        let mut region = vec![0; 4110];
        region[place] = word;
        assert_eq!(refused(kind, &s, 1.0, &region), 6);
        let (_, after) = raw(kind, &s, 1.0, &[Value::Real(1.0)], &region);
        assert_eq!(f64::from_bits(after[2]), 1.0, "it goes on");
    }
}

#[test]
fn a_time_that_runs_back() {
    let (kind, s) = (Kind::TrueDelay, [w(2.0), 0]);
    let region = [w(2.0), w(4.0), 1, 0];
    assert_eq!(refused(kind, &s, 3.0, &region), 7);
    let after = raw(kind, &s, 3.0, &[Value::Boolean(true)], &region).1;
    assert_eq!(f64::from_bits(after[0]), 1.0);
}

/// Document 01 alone says what the least duration of -0.0 is: `oce_model` is not published.
#[test]
fn a_delay_of_minus_zero() {
    let (kind, s) = (Kind::TrueDelay, [w(-0.0), 0]);
    let mut region = [0; 4];
    model::start(kind, &s, &mut region);
    model::update(kind, &s, w(0.0), &[1, 0, 0], &mut region);
    assert_eq!(region[0], 0);
}
