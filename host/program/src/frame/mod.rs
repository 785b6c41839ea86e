//! Frames by their bits: where the fields lie, and what bytes give for them.

pub mod given;
pub mod layout;

use yarrowbell::Command;

/// How many channels a whole Update of these bytes has. Of other frames it is a number that can be
/// listed too, and matters to none of them.
pub fn entries(bytes: &[u8]) -> usize {
    ((bytes.len() - 1) / 3).max(1)
}

/// The command of a whole frame, if the library reads it.
pub fn command(bytes: &[u8]) -> Option<Command> {
    yarrowbell::read(bytes, entries(bytes)).ok().map(|frame| frame.command)
}
