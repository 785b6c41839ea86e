//! The packets of the RehaStim2 (source 000, "ScienceMode2"): a reader and a writer, and all packets of
//! a capture.
//!
//! A packet stands between F0 and 0F. Its bytes F0, 0F and 81 are stuffed to 81 A5, 81 5A and 81 D4,
//! and a checksum and a length come before the packet number, the command and the command's data.
//!
//! ```
//! use yarrowbell::rehastim2::{read, Command, NotRead, Packet};
//!
//! // Two bytes of garbage, and then a GetStimulationMode.
//! let bytes = [0x33, 0x0F, 0xF0, 0x81, 0x76, 0x81, 0x57, 0x01, 0x0A, 0x0F];
//! let packet = read(&bytes, &mut [])?;
//! let command = Command::GetStimulationMode;
//! assert_eq!(packet, Packet { number: 1, command, size: 0, used: 10 });
//! # Ok::<(), NotRead>(())
//! ```

mod command;
mod error_code;
mod not_written;
mod packets;
mod stimulation_mode;

pub use crate::packets::NotRead;
pub use command::{ChannelList, Command};
pub use error_code::ErrorCode;
pub use not_written::NotWritten;
pub use packets::{packets, Found, Packets};
pub use stimulation_mode::StimulationMode;

use crate::calls::rehastim2 as calls;
use crate::raw::Wrote;

/// How many bytes of data a command has at most.
pub const LONGEST_DATA: usize = 60;

/// How many bytes the longest packet has that is written: an InitChannelListMode of which the packet
/// number, three values and half of the main interval are stuffed.
pub const LONGEST_WRITTEN: usize = 20;

/// A command as it was read, with its packet number.
#[derive(Clone, Copy, Debug, PartialEq, Eq)]
pub struct Packet {
    /// Packet number, 0 to 255. A response echoes that of the command.
    pub number: u8,
    /// What was read.
    pub command: Command,
    /// How many bytes of data it has: 0 to [`LONGEST_DATA`].
    pub size: usize,
    /// How many bytes were used, to the stop and with any garbage before the start.
    pub used: usize,
}

/// Reads the first packet of `bytes`, and puts the data of its command, not stuffed, to the start of
/// `data`. Of a command that is [`Command::Other`] the data is all that is told.
///
/// Garbage before the packet is passed over. A packet that is refused with [`NotRead::WrongChecksum`]
/// or [`NotRead::NotGood`] tells how many bytes to leave out, to read on behind it.
///
/// ```
/// use yarrowbell::rehastim2::{read, Command, ErrorCode, NotRead, StimulationMode};
///
/// let mut data = [0; 60];
/// let bytes = [0xF0, 0x81, 0x11, 0x81, 0x51, 0x09, 0x0B, 0x00, 0x02, 0x0F];
/// let packet = read(&bytes, &mut data)?;
/// let mode = Some(StimulationMode::STIMULATION_STARTED);
/// let result = ErrorCode::NO_ERROR;
/// assert_eq!(packet.command, Command::GetStimulationModeAck { result, mode });
/// assert_eq!(data[..packet.size], [0, 2]);
///
/// let damaged = [0xF0, 0x81, 0x11, 0x81, 0x51, 0x09, 0x0B, 0x00, 0x01, 0x0F];
/// assert_eq!(read(&damaged, &mut data), Err(NotRead::WrongChecksum { used: 10 }));
/// # Ok::<(), NotRead>(())
/// ```
pub fn read(bytes: &[u8], data: &mut [u8]) -> Result<Packet, NotRead> {
    let read = calls::read(bytes, data);
    match NotRead::known(read.answer, read.used) {
        Some(why) => Err(why),
        None => Ok(Packet {
            number: read.packet,
            command: Command::known(&read),
            size: read.size.into(),
            used: read.used,
        }),
    }
}

/// Writes the packet of a command with this packet number to the start of `out`, and hands back how
/// many bytes it has, [`LONGEST_WRITTEN`] at most. [`Command::Other`] is not written.
///
/// ```
/// use yarrowbell::rehastim2::{write, Command, NotWritten, LONGEST_WRITTEN};
///
/// let mut out = [0; LONGEST_WRITTEN];
/// let used = write(0xF0, &Command::Watchdog, &mut out)?;
/// assert_eq!(out[..used], [0xF0, 0x81, 0x70, 0x81, 0x56, 0x81, 0xA5, 0x04, 0x0F]);
/// assert_eq!(write(1, &Command::Other { number: 60 }, &mut out), Err(NotWritten::NotGood));
/// # Ok::<(), NotWritten>(())
/// ```
pub fn write(packet: u8, command: &Command, out: &mut [u8]) -> Result<usize, NotWritten> {
    let Wrote { answer, used } = match *command {
        Command::Init { version } => calls::write_init(packet, version, out),
        Command::InitAck { result } => calls::write_init_ack(packet, result.0, out),
        Command::UnknownCommand { echo } => calls::write_unknown_command(packet, echo, out),
        Command::Watchdog => calls::write_watchdog(packet, out),
        Command::GetStimulationMode => calls::write_get_stimulation_mode(packet, out),
        Command::GetStimulationModeAck { result, mode } => {
            // "If Result ≠ 0, then byte 8 = stop byte", and else the mode is there.
            if mode.is_some() != (result == ErrorCode::NO_ERROR) {
                return Err(NotWritten::NotGood);
            }
            let mode = mode.map_or(0, |mode| mode.0);
            calls::write_get_stimulation_mode_ack(packet, result.0, mode, out)
        }
        Command::InitChannelListMode(list) => {
            calls::write_init_channel_list_mode(packet, list, out)
        }
        Command::InitChannelListModeAck { result } => {
            calls::write_init_channel_list_mode_ack(packet, result.0, out)
        }
        Command::Other { .. } => return Err(NotWritten::NotGood),
    };
    NotWritten::known(answer).map_or(Ok(used.into()), Err)
}
