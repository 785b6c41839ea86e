//! The comparison of the exports with the independent codec, which is the soak's; what differs is told
//! by a panic.

use independent::rehamove3::{Command, Pulse, Reading};
pub use soak::packets::rehamove3::ROOM;
use soak::packets::rehamove3::{agree, alike};
use soak::packets::Written;
use yarrowbell::rehamove3;

/// Reads by every export and by the independent codec, into an output of `room` bytes, and hands back
/// what all of them say.
pub fn read(bytes: &[u8], room: usize) -> Reading {
    agree::read(bytes, room).unwrap_or_else(|what| panic!("{what}"))
}

/// Writes by the command's export and by the independent codec into an output of `room` bytes, and
/// hands back the packet, or the answer of a refusal.
pub fn write(packet: u8, command: Command, room: usize) -> Written {
    agree::write(packet, command, room).unwrap_or_else(|what| panic!("{what}"))
}

/// Weighs by the export and by the independent codec, and hands back the net charge, or none of a pulse
/// that is not good.
pub fn charge(pulse: Pulse) -> Option<i32> {
    agree::charge(pulse).unwrap_or_else(|what| panic!("{what}"))
}

/// A command that was read, as a host program has it.
pub fn ours(command: &Command) -> rehamove3::Command {
    alike::command(command).unwrap_or_else(|| panic!("{command:?}"))
}

/// What the reader tells where it reads nothing.
pub fn refused(answer: u8, used: usize) -> Reading {
    Reading { answer, used, ..Reading::default() }
}
