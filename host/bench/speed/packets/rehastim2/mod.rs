//! Packets of the RehaStim2.

mod read;
mod write;

pub use read::rows as read;
pub use write::rows as write;

use super::Device;
use crate::random_bytes::byte;
use crate::random_packets::{command, packet};
use crate::table::byte_of_11_bits;
use independent::plain::{codec, rehastim2 as plain};
use independent::rehastim2::{self as independently, ChannelList, Command};
use rand::rngs::SmallRng;
use soak::packets::rehastim2::alike;
use soak::packets::{covered, rehastim2};
use yarrowbell::calls::rehastim2 as calls;
use yarrowbell::raw::rehastim2::ReadPacket;
use yarrowbell::raw::Wrote;
use yarrowbell::rehastim2::{LONGEST_DATA, LONGEST_WRITTEN};

const LIST: ChannelList = ChannelList {
    low_frequency_factor: 3,
    active_channels: 255,
    active_low_frequency_channels: 170,
    inter_pulse_interval: 9,
    main_stimulation_interval: 1998,
    channel_execution: 1,
};

pub struct RehaStim2;

impl Device for RehaStim2 {
    const READ: &'static str = "packet read, RehaStim2";
    const WRITE: &'static str = "packet write, RehaStim2";

    /// 8 bits of data with a start, an even parity and a stop (source 000, table 4).
    const BYTE: f64 = byte_of_11_bits(460_800);

    const LONGEST_DATA: usize = LONGEST_DATA;
    const LONGEST_WRITTEN: usize = LONGEST_WRITTEN;

    type Command = Command;
    type Read = ReadPacket;
    type PlainRead = plain::Read;
    type Reading = independently::Reading;

    fn read(bytes: &[u8], out: &mut [u8]) -> ReadPacket {
        calls::read(bytes, out)
    }

    fn plain_read(bytes: &[u8], out: &mut [u8]) -> plain::Read {
        plain::read(bytes, out)
    }

    fn independent_read(bytes: &[u8], room: usize) -> independently::Reading {
        independently::read(bytes, room)
    }

    fn of_plain(read: plain::Read) -> ReadPacket {
        let plain::Read { used, answer, packet, size, command } = read;
        let all = ReadPacket { used, answer, packet, size, ..ReadPacket::default() };
        command.map_or(all, |command| alike::with_command(all, command))
    }

    fn of_independent(reading: independently::Reading) -> (ReadPacket, Vec<u8>) {
        (alike::report(&reading), reading.data)
    }

    fn answer(read: &ReadPacket) -> u8 {
        read.answer
    }

    fn write(packet: u8, command: Command, out: &mut [u8]) -> Wrote {
        alike::write(packet, command, out).expect("a command that is carried")
    }

    fn plain_write(packet: u8, command: Command, out: &mut [u8]) -> codec::Wrote {
        plain::write(packet, command, out)
    }

    fn independent_write(packet: u8, command: Command) -> Option<Vec<u8>> {
        independently::write(packet, command)
    }

    fn command(rng: &mut SmallRng) -> (u8, Command) {
        (byte(rng, 5), command(rng))
    }

    fn packet(rng: &mut SmallRng) -> Vec<u8> {
        packet(rng)
    }

    fn covered(rng: &mut SmallRng) -> Vec<u8> {
        covered::<rehastim2::RehaStim2>(rng)
    }
}
