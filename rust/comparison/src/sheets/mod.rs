//! Bench sheets compared: made at random, with faults planted, against the model of documents 01 and 02, against their blocks run
//! singly, and against the published blocks run singly.
mod call;
pub mod cases;
mod classes;
mod compare;
pub mod differ;
mod faults;
mod feeding;
mod make;
pub mod singly;
pub mod worked;

pub use call::{Call, Left};
pub use classes::{SheetClass, expected_classes};
pub use compare::compare;
pub use faults::{Fault, bad_columns, due, plant};
pub use feeding::{As, Bad, Fed};
pub use make::Sheet;
