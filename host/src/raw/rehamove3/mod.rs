//! The exports for packets of the RehaMove3 (sources 001 and 002).

mod exports;
mod pulse;
mod reports;

pub(crate) use exports::*;
pub use pulse::*;
pub use reports::*;
