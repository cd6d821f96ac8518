//! Document 01's table of refusals, stated by planted faults: an accepted call with some of the
//! five faults put in is refused with the least number among them, and with zeros, and writes
//! nothing. The Rust refuses nothing, so this does not come from it.
use comparison::inputs::{self, NOT_FINITE, Rng};
use comparison::lengths::other_length;
use comparison::model::{self, leaves::UNSET};
use comparison::{Answer, Kind};

const NUMBERS: [u64; 5] = [2, 3, 5, 6, 7];

struct Call {
    kind: Kind,
    settings: Vec<u64>,
    time: u64,
    inputs: [u64; 3],
    region: Vec<u64>,
}

impl Call {
    /// A call that is accepted, after a previous time that lies at most at it.
    fn accepted(r: &mut Rng, kind: Kind) -> Call {
        let mut settings = inputs::accepted_settings(r, kind);
        if kind.is_controller() {
            settings[0] = 1 + r.below(3); // P keeps no previous time
        }
        let mut region = vec![0; model::state_length(kind, &settings).1];
        model::start(kind, &settings, &mut region);
        let previous = inputs::tame(r);
        let place = kind.time_place(&settings).expect("it keeps a time");
        region[place] = previous.to_bits();
        let later = previous + r.below(3) as f64;
        Call {
            kind,
            settings,
            time: later.to_bits(),
            inputs: inputs::tick_inputs(r, kind),
            region,
        }
    }

    /// Puts in the fault that a number stands for.
    fn plant(&mut self, r: &mut Rng, number: u64) {
        let place = self
            .kind
            .time_place(&self.settings)
            .expect("it keeps a time");
        match number {
            2 => inputs::refuse_setting(r, self.kind, &mut self.settings),
            3 => self.region.resize(other_length(r, self.region.len()), 0),
            5 => self.time = r.pick(&[NOT_FINITE.as_slice(), &[UNSET]].concat()),
            6 if self.kind == Kind::MovingAverage && r.one_in(2) => self.damage_ring(r),
            6 => self.region[place] = r.pick(&NOT_FINITE),
            _ => self.time = (f64::from_bits(self.region[place]) - 0.5).to_bits(),
        }
    }

    /// Head at or above the capacity, or count above it.
    fn damage_ring(&mut self, r: &mut Rng) {
        let capacity = (self.region.len() as u64 - 6) / 2;
        if r.one_in(2) {
            self.region[3] = r.pick(&[capacity, capacity + 1, u64::MAX]);
        } else {
            self.region[4] = r.pick(&[capacity + 1, capacity + 2, u64::MAX]);
        }
    }

    /// The refusals of emit and update, which agree; a refused call answers zeros, writes nothing.
    fn refusal(&self) -> u64 {
        let (kind, s, v) = (self.kind, &self.settings, &self.inputs);
        let emitted = model::emit(kind, s, self.time, v, &self.region);
        let mut after = self.region.clone();
        let updated = model::update(kind, s, self.time, v, &mut after);
        if emitted.refusal != 0 {
            assert_eq!(emitted, Answer::refused(emitted.refusal));
            assert_eq!(updated, emitted);
            assert_eq!(after, self.region);
        }
        assert_eq!(updated.refusal, emitted.refusal);
        emitted.refusal
    }
}

/// The faults of a set, planted; 7 first, for it needs the previous time, and 3 last.
fn planted(r: &mut Rng, kind: Kind, set: u32) -> Call {
    let mut call = Call::accepted(r, kind);
    for number in [7, 5, 2, 6, 3] {
        let bit = NUMBERS.iter().position(|n| *n == number).expect("a number");
        if set >> bit & 1 == 1 {
            call.plant(r, number);
        }
    }
    call
}

#[test]
fn the_least_planted_number_is_given() {
    let mut r = Rng::new(9, 0);
    for kind in Kind::ALL {
        for set in (0..32u32).flat_map(|set| [set; 20]) {
            let call = planted(&mut r, kind, set);
            let due = NUMBERS.get(set.trailing_zeros() as usize).copied();
            assert_eq!(call.refusal(), due.unwrap_or(0), "{kind:?} {set:05b}");
            // sound and decoding know neither 5 nor 7
            let least = (set & 0b01011).trailing_zeros() as usize;
            let due = NUMBERS.get(least).copied().unwrap_or(0);
            let got = model::refusal(kind, &call.settings, &call.region, None);
            assert_eq!(got, due, "sound of {kind:?} {set:05b}");
        }
    }
}

#[test]
fn the_edges_are_accepted() {
    let s = [0, 0];
    let refusal = |time: f64, previous: f64| {
        let region = [0, 0, previous.to_bits()];
        model::refusal(Kind::TrueFalseHold, &s, &region, Some(time.to_bits()))
    };
    assert_eq!(refusal(1.0, 1.0), 0, "an equal time");
    assert_eq!(refusal(-0.0, 0.0), 0, "-0.0 equals 0.0");
    assert_eq!(refusal(0.0, -0.0), 0, "0.0 equals -0.0");
    assert_eq!(refusal(f64::MIN, 0.0), 7);
    assert_eq!(refusal(f64::MAX, f64::MIN), 0);
    let unset = [0, 0, UNSET];
    assert_eq!(
        model::refusal(Kind::TrueFalseHold, &s, &unset, Some(f64::MIN.to_bits())),
        0
    );
    let mut full = vec![0; 4110];
    (full[2], full[3], full[4]) = (UNSET, 2051, 2052);
    assert_eq!(
        model::refusal(Kind::MovingAverage, &[0], &full, None),
        0,
        "a full ring"
    );
}
