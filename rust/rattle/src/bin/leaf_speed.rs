//! Times each leaf over words, as published and as proved, on the same inputs in one run: nanoseconds
//! a call, the best of five. `leaf_speed LEAF published|proved N` makes N calls of one, for a tool
//! that counts instructions.
use std::hint::black_box;
use std::time::Instant;

use comparison::inputs::Rng;
use comparison::leaves::{Leaf, PUBLISHED, words};
use rattle::LEAVES;

/// So many different inputs, over and over.
const INPUTS: usize = 1024;

fn run(leaf: Leaf, calls: usize) -> f64 {
    let mut r = Rng::new(7, 0);
    let inputs: Vec<[u64; 4]> = (0..INPUTS).map(|_| words(&mut r)).collect();
    let began = Instant::now();
    for n in 0..calls {
        black_box(leaf(black_box(inputs[n % INPUTS])));
    }
    began.elapsed().as_nanos() as f64 / calls as f64
}

fn best(leaf: Leaf) -> f64 {
    let times = (0..5).map(|_| run(leaf, 2_000_000));
    times.fold(f64::MAX, f64::min)
}

fn main() {
    let args: Vec<String> = std::env::args().skip(1).collect();
    if let [name, side, calls] = args.as_slice() {
        let leaves = if side == "proved" { LEAVES } else { PUBLISHED };
        let found = leaves.each().into_iter().find(|(n, _)| n == name);
        let (_, leaf) = found.expect("a leaf has this name");
        run(leaf, calls.parse().expect("a number of calls"));
        return;
    }
    println!("{:18} {:>12} {:>12}", "leaf", "published", "proved");
    for ((name, theirs), (_, mine)) in PUBLISHED.each().into_iter().zip(LEAVES.each()) {
        println!("{name:18} {:9.2} ns {:9.2} ns", best(theirs), best(mine));
    }
}
