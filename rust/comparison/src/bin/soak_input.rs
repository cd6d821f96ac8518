//! Writes a long input of the program `soak`: `soak_input BLOCK LINES RARE SEED`. Of its later lines
//! one in RARE is bad, and one in RARE has a time that is to be refused.
use std::io::{self, Write};

use comparison::{Kind, sessions};

fn main() -> io::Result<()> {
    let args: Vec<String> = std::env::args().skip(1).collect();
    let usage = || io::Error::other("soak_input BLOCK LINES RARE SEED");
    let (block, numbers) = args.split_first().ok_or_else(usage)?;
    let kind = Kind::named(block).ok_or_else(usage)?;
    let numbers: Vec<u64> = numbers.iter().flat_map(|n| n.parse()).collect();
    let [lines, rare, seed] = numbers[..] else {
        return Err(usage());
    };
    io::stdout().write_all(sessions::long(kind, lines, rare.max(1), seed).as_bytes())
}
