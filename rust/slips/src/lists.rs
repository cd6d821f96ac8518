//! The stored lists of single calls: some of any sort, and for each slip a few that show it.
use comparison::inputs::{self, Rng};
use comparison::stored::Stored;
use comparison::{Calls, Kind};

use crate::of_blocks;

/// Calls of any sort in a list.
const ANY: usize = 200;

/// Calls for each slip of the block, and how many are tried to find them.
const EACH: usize = 2;
const TRIES: usize = 20_000;

/// A list of stored calls, a call to a line.
#[must_use]
pub fn calls(kind: Kind, seed: u64) -> String {
    let mut r = Rng::new(seed, 100 + kind as u64);
    let mut list: String = (0..ANY).map(|_| call(&mut r, kind).line() + "\n").collect();
    let own = of_blocks().filter(|(slip, _)| slip.block == kind.name());
    let mut wanted: Vec<(&Calls, usize)> = own.map(|(_, calls)| (calls, EACH)).collect();
    for _ in 0..TRIES {
        let call = call(&mut r, kind);
        let mut shows = false;
        for (calls, missing) in wanted.iter_mut().filter(|(_, missing)| *missing > 0) {
            if !call.replay(calls) {
                *missing -= 1;
                shows = true;
            }
        }
        if shows {
            list += &(call.line() + "\n");
        }
    }
    list
}

/// Words of a line that the program `replay` reads.
const LINE: usize = 64;

/// A call whose line is read: of a region that is far too long there are too many words.
fn call(r: &mut Rng, kind: Kind) -> Stored {
    loop {
        let call = any_call(r, kind);
        if call.words().len() <= LINE {
            return call;
        }
    }
}

fn any_call(r: &mut Rng, kind: Kind) -> Stored {
    let s = inputs::settings(r, kind);
    let mut region = inputs::region(r, kind, &s);
    if kind == Kind::MovingAverage && region.len() >= 8 {
        thin(&mut region);
    }
    let (time, inputs) = inputs::tick(r, kind, &s, &region);
    Stored::ask(kind, &s, time, &inputs, &region)
}

/// Zeroes all points of a ring but the first three and the last three, so that a line stays short.
/// Head and count may be any words.
fn thin(region: &mut [u64]) {
    let capacity = (region.len() - 6) / 2;
    let head = (region[3] % capacity as u64) as usize;
    let count = region[4].min(capacity as u64) as usize;
    for n in (0..capacity).filter(|n| (3..count.saturating_sub(3)).contains(n) || *n >= count) {
        let slot = (head + n) % capacity;
        region[6 + slot] = 0;
        region[6 + capacity + slot] = 0;
    }
}
