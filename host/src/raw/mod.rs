//! The exports of the libraries as the C ABI of x86-64 Linux has them.
//!
//! Names, fields, parameters and results are those of the library's source, which
//! `tests/declarations` compares. Both sides rely on this:
//!
//! - a struct has its fields in the order written, each right behind the one before it, and ends
//!   with the last: every byte is a field's; `usize` has 8 bytes;
//! - structs are passed and returned by value, but for a box changed in place, which is a pointer;
//! - a byte slice `s` is passed as a pointer `s` and then its length `s_length`, as two parameters;
//! - a call neither keeps a pointer nor goes past its length, and is given to itself what it may
//!   write.
//!
//! The exports for the packets of a device are in a module of that device's name, those for the sheet
//! in `sheet`.

mod boxes;
mod frames;
pub mod rehamove3;
pub mod rehastim2;
mod ring;
pub mod sheet;

pub use boxes::*;
pub use frames::*;
pub use ring::*;
