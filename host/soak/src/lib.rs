//! Random histories of calls on the box of document 01. Each call is made three times: on the
//! library's box changed in place, on the library's box by value, and on the independent machine.
//! After every call all that they say, keep and leave in the lent memory is the same, and of a lent
//! record every byte.
//!
//! `history` is that trial, `pairs` that of two boxes of which one has the tighter profile, and
//! `packets` that of each device's packets, read and written beside the independent codec, and `sheets`
//! that of the trace as a text sheet. All are fixed by their seed. `met` counts what they came across: a trial that met nothing shows nothing.
//! `alike` puts the independent machine's numbers into the library's records. `sessions` has
//! histories of bytes and ticks alone, for programs that play them.

pub mod alike;
pub mod history;
pub mod met;
pub mod packets;
pub mod pairs;
pub mod sessions;
pub mod sheets;

mod act;
mod damage;
mod failure;
mod frames;
mod jump;
mod lent;
mod numbers;
mod output;
mod pick;
mod profiles;
#[path = "../../tests/shared/random_bytes.rs"]
mod random_bytes;
#[path = "../../tests/shared/random_packets.rs"]
mod random_packets;
#[path = "../../tests/shared/random_pulses.rs"]
mod random_pulses;
#[path = "../../tests/shared/random_sheets.rs"]
mod random_sheets;
mod three;

pub use failure::Failure;
