//! A second codec of the four ScienceMode command frames, a second trace ring with its text sheet and a
//! second box, and second codecs of the packets of the RehaStim2 and of the RehaMove3, written from the
//! papers alone and sharing nothing with the library that they are compared with. Where a push meets
//! bytes that do not split, which no paper speaks of, the ring follows the repository's decision.
//!
//! Source 003 is "ScienceMode - RehaStim Stimulation Device", 21st September 2009; document 01 is
//! the specification of this repository, which rules where source 003 leaves a choice.
//!
//! The codec of frames works on lists of bits: `tables` has the papers' tables as data, `walk` goes
//! along them bit by bit, and `codec` puts the tests of document 01 in their order.
//!
//! The ring is there twice: `trace` has it from the records pushed, `ring` from the bytes of a
//! buffer, whoever wrote them.
//!
//! `sheet` has the trace as a text sheet, by a crate that writes and reads such sheets.
//!
//! `rehastim2` and `rehamove3` have the packets, as grammars; `packets` has what both share.
//!
//! These are slow and near to the papers. `plain` has the codecs, the ring and the sheet once more, and
//! the box, as fast as plain safe Rust can be made.

mod codec;
mod command;
mod good;
mod packets;
pub mod plain;
mod record;
pub mod rehamove3;
pub mod rehastim2;
mod ring;
pub mod sheet;
mod tables;
mod trace;
mod walk;

pub use codec::{check, compose, free_bits, read, reply, write, Frame};
pub use command::{Command, Init, Setting, Single};
pub use record::Record;
pub use ring::{Part, Ring};
pub use tables::{Bit, Kind, Layout, Row, Variable, LAYOUTS};
pub use trace::{tail, Trace};
