//! What document 01 says over whole histories, against the ported Rust.
//! `wiping`: demand 3, and request 6 of document 02. `ring`: long runs of the moving average, with
//! requests 2 and 7. `accounts`: the definitions that read the ticks of a history only.
mod accounts;
pub mod ring;
pub mod wiping;

/// One accepted tick of a history.
#[derive(Clone, Copy, Debug)]
pub struct Tick {
    time: f64,
    inputs: [u64; 3],
}

impl Tick {
    /// Input n as a boolean.
    fn is_true(&self, n: usize) -> bool {
        self.inputs[n] != 0
    }
}
