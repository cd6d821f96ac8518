//! A program without a block, for tools/code_bytes: what every program brings along.
fn main() {
    std::process::exit(i32::from(std::env::args().count() > 1));
}
