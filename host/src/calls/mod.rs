//! A safe function for each export. None of them asks anything of its numbers: any record, ring and
//! part has a defined answer, so that a slice's own pointer and length are all that a call must be
//! given rightly.
//!
//! A function's refusals are document 01's numbers in the order in which it tests them. One that
//! refuses leaves everything as it was.
//!
//! The calls for the packets of a device are in a module of that device's name, those for the sheet in
//! [`sheet`].

mod boxes;
mod frames;
pub mod rehamove3;
pub mod rehastim2;
mod ring;
pub mod sheet;

pub use boxes::*;
pub use frames::*;
pub use ring::*;
