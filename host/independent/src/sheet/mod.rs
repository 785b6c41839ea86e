//! The trace as a text sheet (document 02, request 03), by the crate `csv`: "Write a readout into a lent
//! buffer as lines ended by one line feed, and read such a sheet back into records."
//!
//! `range` has document 01's ranges, `fields` a record as the six fields of its line, `line` the lines,
//! and `write` and `read` the tests in their order.

mod fields;
mod line;
mod range;
mod read;
mod write;

pub use crate::record::records;
pub use range::in_range;
pub use read::{read, NotRead};
pub use write::write;
