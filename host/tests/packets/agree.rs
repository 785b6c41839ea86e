//! The comparison of the exports with the independent codec, which is the soak's; what differs is told
//! by a panic.

use independent::rehastim2::{Command, Reading};
use soak::packets::rehastim2::agree;
pub use soak::packets::rehastim2::alike::command as ours;
pub use soak::packets::rehastim2::ROOM;
use soak::packets::Written;

/// Reads by every export and by the independent codec, into an output of `room` bytes, and hands back
/// what all of them say.
pub fn read(bytes: &[u8], room: usize) -> Reading {
    agree::read(bytes, room).unwrap_or_else(|what| panic!("{what}"))
}

/// Writes by the command's export and by the independent codec into an output of `room` bytes, and
/// hands back the packet, or the answer of a refusal.
pub fn write(packet: u8, command: Command, room: usize) -> Written {
    agree::write(packet, command, room).unwrap_or_else(|what| panic!("{what}"))
}

/// What the reader tells where it reads nothing.
pub fn refused(answer: u8, used: usize) -> Reading {
    Reading { answer, used, ..Reading::default() }
}
