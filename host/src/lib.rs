//! Safe calls to the proved guard unit of document 01: its box, its trace ring, the trace as a text
//! sheet, and the reader and writer of ScienceMode frames; and to the proved readers and writers of the
//! packets of two later devices, the RehaStim2 (ScienceMode2) and the RehaMove3.
//!
//! [`Guard`], [`records()`] and [`sheet`] for its trace, [`read()`], [`write()`] and [`reply()`] for
//! frames, and [`rehastim2`] and [`rehamove3`] for packets, are what a host program uses. [`calls`] has
//! one function for each export of the library, for tests that drive them one by one. Clocks count
//! tenths of a millisecond.
//!
//! `cargo test` in this folder has the library proved and built first, and compares it with the
//! codecs, the ring and the machine in `independent/`, which share nothing with it.

mod answer;
mod box_record;
pub mod calls;
mod cause;
mod frames;
mod guard;
mod not_done;
pub mod packets;
mod profile;
pub mod raw;
mod records;
mod refusal;
pub mod rehamove3;
pub mod rehastim2;
pub mod sheet;
mod state;
mod told;

pub use answer::Answer;
pub use cause::Cause;
pub use frames::{read, reply, write, Command, Frame};
pub use guard::Guard;
pub use not_done::{NotRead, NotWritten};
pub use profile::{Looser, OutOfRange};
pub use raw::{Init, Profile, Released, Setting, Single};
pub use records::{records, Body, NotRecords, Record};
pub use refusal::Refusal;
pub use state::State;
pub use told::Told;
