//! Compares long runs of the proved moving average with the Rust, from a fresh start to where its ring has gone around:
//! `long_runs SEED`.
use comparison::histories::ring;

/// Windows and the number of ticks of a run over each: a ring has about 2048 points.
const WINDOWS: [(f64, u64); 3] = [(2.0, 6000), (300.0, 6000), (1024.5, 6000)];

fn main() {
    let seed = std::env::args().nth(1).and_then(|a| a.parse().ok());
    let Some(seed) = seed else {
        eprintln!("long_runs SEED");
        std::process::exit(2);
    };
    let (runs, tally) = ring::compare(&rattle::CALLS, &WINDOWS, seed);
    println!("{runs} long runs, {}", tally.line());
    let held = tally.report("long runs", &ring::EXPECTED);
    println!("{} passed, {} failed", u64::from(held), u64::from(!held));
    std::process::exit(i32::from(!held));
}
