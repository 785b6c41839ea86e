//! The ring in place, from record to record, by slices.

mod append;
mod part;
mod push;
mod read_out;
mod ready;
mod records;
mod split;

pub(crate) use append::append;
pub(crate) use part::{good, part, part_mut};
pub use push::{push, push_answer, push_pulse, push_trip};
pub use read_out::read_out;
pub use ready::ready;
pub(crate) use records::{answer, pulse, trip};
pub(crate) use split::{hops, splits};
