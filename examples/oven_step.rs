//! One step of an oven program: heat the trays, wait until they are warm, add up the soak time. The same program as
//! examples/oven_step.c, which tells it in full; both print examples/oven_step.expected.
use rattle::boundary::{self, AnswerWords};

// The blocks' numbers and the controller's type, as include/oven.h has them.
const PID_WITH_RESET: u64 = 1;
const TIMER_ACCUMULATING: u64 = 3;
const TRUE_DELAY: u64 = 4;
const TYPE_PI: u64 = 1;

/// A block with its settings and its region.
struct Block {
    number: u64,
    settings: Vec<u64>,
    region: Vec<u64>,
}

impl Block {
    fn started(number: u64, settings: Vec<u64>) -> Block {
        let length = boundary::length(number, &settings);
        assert_eq!(length.refusal, 0, "the settings are refused");
        let mut region = vec![0; length.length as usize];
        assert_eq!(boundary::start(number, &settings, &mut region), 0);
        Block {
            number,
            settings,
            region,
        }
    }

    fn tick(&mut self, time: f64, [first, second, third]: [u64; 3]) -> AnswerWords {
        let tick = [time.to_bits(), first, second, third];
        let answer = boundary::tick(self.number, &self.settings, tick, &mut self.region);
        assert_eq!(answer.refusal, 0, "a tick is refused");
        answer
    }
}

/// k, ti, td, r, `y_max`, `y_min`, ni, nd, `xi_start`, `yd_start`, `y_reset`, between the type and `reverse_acting`.
fn pi() -> Vec<u64> {
    let numbers = [1.0, 240.0, 0.1, 20.0, 1.0, 0.0, 0.9, 10.0, 0.0, 0.0, 0.6];
    let mut settings = vec![TYPE_PI];
    settings.extend(numbers.map(f64::to_bits));
    settings.push(1);
    settings
}

fn main() {
    let mut heater = Block::started(PID_WITH_RESET, pi());
    let mut trays = Block::started(TRUE_DELAY, vec![120f64.to_bits(), 1]);
    let mut soak = Block::started(TIMER_ACCUMULATING, vec![900f64.to_bits()]);
    let mut oven = 25.0;
    println!("  time   oven   heat  door  warm  soak  done");
    for time in (0..=1650).step_by(10) {
        let (t, open) = (f64::from(time), (900..960).contains(&time));
        let inputs = [85f64.to_bits(), f64::to_bits(oven), open.into()];
        let heat = f64::from_bits(heater.tick(t, inputs).real);
        let hot = !open && oven >= 80.0;
        let warm = trays.tick(t, [hot.into(), 0, 0]).boolean;
        let clock = soak.tick(t, [warm, 0, 0]);
        if time % 150 == 0 {
            let door = if open { "open" } else { "shut" };
            let [warm, done] = [warm, clock.boolean].map(|w| if w == 1 { "yes" } else { "no" });
            let total = f64::from_bits(clock.real);
            println!("{t:6.0} {oven:6.2} {heat:6.3}  {door:4}  {warm:4}  {total:4.0}  {done}");
        }
        let lifted = if open { 25.0 } else { 25.0 + 100.0 * heat };
        oven += (10.0 / if open { 120.0 } else { 240.0 }) * (lifted - oven);
    }
}
