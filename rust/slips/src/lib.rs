//! The model of document 01 with one slip put in, for each slip of the tables. The tests see the
//! comparison with the Rust catch every one of the blocks' and of sound's, that of sheets every one
//! of theirs, and that of leaves every one of rounding.
#![forbid(unsafe_code)]

pub mod lists;
mod pulse_table;
pub mod rounding;
mod rounding_table;
mod sheet_table;
mod sound_table;
mod table;

/// The slipped copies. A slip may leave a name unused.
#[allow(dead_code, unused, clippy::all)]
mod slipped {
    include!(concat!(env!("OUT_DIR"), "/slipped.rs"));
}

pub use pulse_table::PULSE_SLIPS;
pub use rounding_table::{ROUNDING_SLIPS, USE_SLIPS};
pub use sheet_table::SHEET_SLIPS;
pub use sound_table::{REFUSING_SLIPS, SOUND_SLIPS};
pub use table::{SLIPS, Slip};

use comparison::leaves::Leaves;

// what the copies name, as the model does
pub use comparison::{Answer, Calls, Decoded, Kind, TickWords, sheet};

/// The calls of each slipped model, in the order of its table.
pub const SLIPPED: [Calls; SLIPS.len()] = slipped::CALLS;
pub const SLIPPED_PULSES: [Calls; PULSE_SLIPS.len()] = slipped::PULSE_CALLS;

/// Those of the model with each slip of sound, and of each model that refuses a ring for it.
pub const SLIPPED_SOUND: [Calls; SOUND_SLIPS.len()] = slipped::SOUND_CALLS;
pub const REFUSING: [Calls; REFUSING_SLIPS.len()] = slipped::REFUSING_CALLS;

/// Those of the model with each slip of what blocks round.
pub const SLIPPED_USES: [Calls; USE_SLIPS.len()] = slipped::USE_CALLS;

/// The slips of the blocks, each with its calls: these the stored calls must show.
pub fn of_blocks() -> impl Iterator<Item = (&'static Slip, &'static Calls)> {
    let pulses = PULSE_SLIPS.iter().zip(&SLIPPED_PULSES);
    SLIPS.iter().zip(&SLIPPED).chain(pulses)
}

/// The sheet's calls of each model with a slip in its sheet.
pub const SLIPPED_SHEETS: [sheet::SheetCalls; SHEET_SLIPS.len()] = slipped::SHEETS;

/// The leaves with each slip of rounding.
pub const SLIPPED_ROUNDING: [Leaves; ROUNDING_SLIPS.len()] = slipped::ROUNDINGS;
