//! Reads standard input and writes what the program `soak` of document 01 must write.
use std::io::{self, Read, Write};

fn main() -> io::Result<()> {
    let mut input = Vec::new();
    io::stdin().read_to_end(&mut input)?;
    io::stdout().write_all(comparison::soak::soak(&input).as_bytes())
}
