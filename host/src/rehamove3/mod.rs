//! The packets of the RehaMove3 (sources 001 and 002, "ScienceMode RehaMove3"): a reader and a writer of
//! its low level commands, pulses point by point with their net charge, and all packets of a capture.
//!
//! A packet stands between F0 and 0F. Its bytes F0, 0F and 81 are stuffed to 81 A5, 81 5A and 81 D4,
//! and a length and a checksum come before the packet number, the command and the command's data.
//!
//! ```
//! use yarrowbell::rehamove3::{read, Command, NotRead, Packet};
//!
//! // Two bytes of garbage, and then an Ll_stop.
//! let stop = [0xF0, 0x81, 0x55, 0x81, 0x59, 0x81, 0x9C, 0x81, 0x78, 0x08, 0x04, 0x0F];
//! let packet = read(&[&[0x33, 0x0F], &stop[..]].concat(), &mut [])?;
//! let command = Command::LlStop;
//! assert_eq!(packet, Packet { number: 2, command, size: 0, used: 14, charge: 0 });
//! # Ok::<(), NotRead>(())
//! ```

mod command;
mod high_voltage;
mod not_written;
mod outcome;
mod packets;
mod pulse;

pub use crate::packets::NotRead;
pub use command::{ChannelConfig, Command};
pub use high_voltage::HighVoltage;
pub use not_written::NotWritten;
pub use outcome::Outcome;
pub use packets::{packets, Found, Packets};
pub use pulse::{Point, Pulse};

use crate::calls::rehamove3 as calls;
use crate::raw::Wrote;

/// How many bytes a packet has at most, start and stop included.
pub const LONGEST_PACKET: usize = 1_200;

/// How many bytes of data a command has at most, if none of them is stuffed.
pub const LONGEST_DATA: usize = 1_188;

/// How many bytes the longest packet has that is written: an Ll_channel_config of 16 points, of which
/// 48 bytes are stuffed.
pub const LONGEST_WRITTEN: usize = 125;

/// A command as it was read, with its packet number.
#[derive(Clone, Copy, Debug, PartialEq, Eq)]
pub struct Packet {
    /// Packet number, 0 to 63. An acknowledgement echoes that of the command.
    pub number: u8,
    /// What was read.
    pub command: Command,
    /// How many bytes of data it has: 0 to [`LONGEST_DATA`].
    pub size: usize,
    /// How many bytes were used, to the stop and with any garbage before the start.
    pub used: usize,
    /// The net charge of the pulse in half milliamp microseconds; 0 if the command has none.
    pub charge: i32,
}

/// Reads the first packet of `bytes`, and puts the data of its command, not stuffed, to the start of
/// `data`. Of a command that is [`Command::Other`] the data is all that is told. A pulse is read
/// whatever its net charge.
///
/// Garbage before the packet is passed over. A packet that is refused with [`NotRead::WrongChecksum`]
/// or [`NotRead::NotGood`] tells how many bytes to leave out, to read on behind it.
///
/// ```
/// use yarrowbell::rehamove3::{read, Command, NotRead, Point, LONGEST_DATA};
///
/// let mut data = [0; LONGEST_DATA];
/// let mut bytes = [
///     0xF0, 0x81, 0x55, 0x81, 0x4E, 0x81, 0xD3, 0x81, 0xAF, 0x04, 0x02, 0x82, 0x81, 0x5A, 0xA5,
///     0x50, 0x00, 0x06, 0x44, 0xB0, 0x00, 0x81, 0x5A, 0xA4, 0x10, 0x00, 0x0F,
/// ];
/// let packet = read(&bytes, &mut data)?;
/// let Command::LlChannelConfig(config) = packet.command else { panic!("{packet:?}") };
/// assert_eq!((packet.number, config.execution, config.channel), (1, true, 0));
/// assert_eq!(config.pulse.points()[0], Point { duration: 250, current: 40 });
/// assert_eq!((config.pulse.points().len(), packet.charge), (3, 0));
/// assert_eq!(data[..5], [0x82, 0x0F, 0xA5, 0x50, 0x00]);
/// assert_eq!(packet.size, 13);
///
/// bytes[25] = 1;
/// assert_eq!(read(&bytes, &mut data), Err(NotRead::WrongChecksum { used: 27 }));
/// # Ok::<(), NotRead>(())
/// ```
pub fn read(bytes: &[u8], data: &mut [u8]) -> Result<Packet, NotRead> {
    let read = calls::read(bytes, data);
    match NotRead::known(read.answer, read.used) {
        Some(why) => Err(why),
        None => Ok(Packet {
            number: read.packet,
            command: Command::known(&read),
            size: read.size.into(),
            used: read.used,
            charge: read.charge,
        }),
    }
}

/// Writes the packet of a command with this packet number to the start of `out`, and hands back how
/// many bytes it has, [`LONGEST_WRITTEN`] at most. [`Command::Other`] is not written, nor is a pulse
/// whose net charge is not zero.
///
/// ```
/// use yarrowbell::rehamove3::{write, Command, HighVoltage, NotWritten, LONGEST_WRITTEN};
///
/// let mut out = [0; LONGEST_WRITTEN];
/// let init = Command::LlInit { voltage: HighVoltage::STANDARD };
/// let used = write(0, &init, &mut out)?;
/// let header = [0xF0, 0x81, 0x55, 0x81, 0x58, 0x81, 0x55, 0x81, 0x55];
/// assert_eq!(out[..used], [&header[..], &[0x00, 0x00, 0x00, 0x0F]].concat());
/// assert_eq!(write(64, &init, &mut out), Err(NotWritten::NotGood));
/// assert_eq!(write(1, &Command::Other { number: 30 }, &mut out), Err(NotWritten::NotGood));
/// # Ok::<(), NotWritten>(())
/// ```
pub fn write(packet: u8, command: &Command, out: &mut [u8]) -> Result<usize, NotWritten> {
    let Wrote { answer, used } = match *command {
        Command::LlInit { voltage } => calls::write_ll_init(packet, voltage.0, out),
        Command::LlInitAck { result } => calls::write_ll_init_ack(packet, result.0, out),
        Command::LlChannelConfig(ChannelConfig { execution, channel, pulse }) => {
            let wrote =
                calls::write_ll_channel_config(packet, execution.into(), channel, pulse.raw(), out);
            if let (Some(NotWritten::NotGood), Some(charge @ (..=-1 | 1..))) =
                (NotWritten::known(wrote.answer), pulse.charge())
            {
                return Err(NotWritten::NotBalanced { charge });
            }
            wrote
        }
        Command::LlChannelConfigAck { result, electrode } => {
            calls::write_ll_channel_config_ack(packet, result.0, electrode, out)
        }
        Command::LlStop => calls::write_ll_stop(packet, out),
        Command::LlStopAck { result } => calls::write_ll_stop_ack(packet, result.0, out),
        Command::Other { .. } => return Err(NotWritten::NotGood),
    };
    NotWritten::known(answer).map_or(Ok(used.into()), Err)
}
