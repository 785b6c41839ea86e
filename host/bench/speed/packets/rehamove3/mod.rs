//! Packets of the RehaMove3.

mod pulses;
mod read;
mod write;

pub use read::rows as read;
pub use write::rows as write;

use super::Device;
use crate::random_pulses::{command, packet};
use crate::table::byte_of_11_bits;
use independent::plain::{codec, rehamove3 as plain};
use independent::rehamove3::{self as independently, Command};
use rand::rngs::SmallRng;
use rand::Rng;
use soak::packets::rehamove3::alike;
use soak::packets::{covered, rehamove3};
use yarrowbell::calls::rehamove3 as calls;
use yarrowbell::raw::rehamove3::ReadPacket;
use yarrowbell::raw::Wrote;
use yarrowbell::rehamove3::{LONGEST_DATA, LONGEST_WRITTEN};

pub struct RehaMove3;

impl Device for RehaMove3 {
    const READ: &'static str = "packet read, RehaMove3";
    const WRITE: &'static str = "packet write, RehaMove3";

    /// 8 bits of data with a start and two stops (source 002, table 1).
    const BYTE: f64 = byte_of_11_bits(3_000_000);

    const LONGEST_DATA: usize = LONGEST_DATA;
    const LONGEST_WRITTEN: usize = LONGEST_WRITTEN;

    type Command = Command;
    type Read = ReadPacket;
    type PlainRead = plain::Read;
    type Reading = independently::Reading;

    fn read(bytes: &[u8], out: &mut [u8]) -> ReadPacket {
        calls::read(bytes, out)
    }

    fn plain_read(bytes: &[u8], out: &mut [u8]) -> plain::Read {
        plain::read(bytes, out)
    }

    fn independent_read(bytes: &[u8], room: usize) -> independently::Reading {
        independently::read(bytes, room)
    }

    fn of_plain(read: plain::Read) -> ReadPacket {
        let plain::Read { used, charge, answer, packet, size, command } = read;
        let all = ReadPacket { used, charge, answer, packet, size, ..ReadPacket::default() };
        command.map_or(all, |command| alike::with_command(all, command))
    }

    fn of_independent(reading: independently::Reading) -> (ReadPacket, Vec<u8>) {
        (alike::report(&reading), reading.data)
    }

    fn answer(read: &ReadPacket) -> u8 {
        read.answer
    }

    fn write(packet: u8, command: Command, out: &mut [u8]) -> Wrote {
        alike::write(packet, command, out).expect("a command that is carried")
    }

    fn plain_write(packet: u8, command: Command, out: &mut [u8]) -> codec::Wrote {
        plain::write(packet, command, out)
    }

    fn independent_write(packet: u8, command: Command) -> Option<Vec<u8>> {
        independently::write(packet, command)
    }

    fn command(rng: &mut SmallRng) -> (u8, Command) {
        (rng.gen_range(0..=64), command(rng))
    }

    fn packet(rng: &mut SmallRng) -> Vec<u8> {
        packet(rng)
    }

    fn covered(rng: &mut SmallRng) -> Vec<u8> {
        covered::<rehamove3::RehaMove3>(rng)
    }
}
