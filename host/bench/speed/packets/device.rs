//! A device whose packets are read and written on three sides.

use independent::plain::codec;
use rand::rngs::SmallRng;
use std::fmt::Debug;
use yarrowbell::raw::Wrote;

pub trait Device {
    /// The groups of its measurements.
    const READ: &'static str;
    const WRITE: &'static str;

    /// The nanoseconds from one byte on its line to the next.
    const BYTE: f64;

    const LONGEST_DATA: usize;
    const LONGEST_WRITTEN: usize;

    type Command: Copy + Debug;
    /// What the library, plain Rust and the independent codec tell of a packet that they read.
    type Read: PartialEq + Debug;
    type PlainRead;
    type Reading;

    fn read(bytes: &[u8], out: &mut [u8]) -> Self::Read;
    fn plain_read(bytes: &[u8], out: &mut [u8]) -> Self::PlainRead;
    fn independent_read(bytes: &[u8], room: usize) -> Self::Reading;

    /// The same as the library would tell it, and the data.
    fn of_plain(read: Self::PlainRead) -> Self::Read;
    fn of_independent(reading: Self::Reading) -> (Self::Read, Vec<u8>);

    fn answer(read: &Self::Read) -> u8;

    /// By the export of the command, which is carried.
    fn write(packet: u8, command: Self::Command, out: &mut [u8]) -> Wrote;
    fn plain_write(packet: u8, command: Self::Command, out: &mut [u8]) -> codec::Wrote;
    fn independent_write(packet: u8, command: Self::Command) -> Option<Vec<u8>>;

    /// A random packet number and a random command that is carried, most often good.
    fn command(rng: &mut SmallRng) -> (u8, Self::Command);

    /// A random packet, and any bytes behind a header that is right.
    fn packet(rng: &mut SmallRng) -> Vec<u8>;
    fn covered(rng: &mut SmallRng) -> Vec<u8>;
}
