//! What differs from device to device.

use super::{Counts, Written};
use crate::met::Met;
use rand::rngs::SmallRng;

/// A device that speaks in packets.
pub trait Device {
    const NAME: &'static str;
    const TRIAL: &'static str;
    /// The commands that are carried, by their numbers.
    const COMMANDS: &'static [(u16, &'static str)];

    /// The longest output that is lent, the longest data of any command and of a carried one, and the
    /// longest packet that is written.
    const ROOM: usize;
    const LONGEST_DATA: usize;
    const LONGEST_CARRIED: usize;
    const LONGEST_WRITTEN: usize;
    /// More stuffed bytes than a packet can have.
    const TOO_LONG: usize;

    /// The places of a packet that tell its checksum, and where what that covers begins.
    const CHECKSUM: &'static [usize];
    const COVERED: usize;

    /// What was met, of this device.
    fn counts(met: &mut Met) -> &mut Counts;

    /// What is counted of this device alone.
    fn own() -> Vec<String>;

    /// Reads by all, and tells what they say.
    fn read(bytes: &[u8], room: usize) -> Result<Seen, String>;

    /// Writes a random command by all, and tells what they say.
    fn write(rng: &mut SmallRng, room: usize) -> Result<Sent, String>;

    /// A random packet, most often of a command that is carried.
    fn packet(rng: &mut SmallRng) -> Vec<u8>;

    /// A packet of a random packet number and command with this data.
    fn with_data(rng: &mut SmallRng, data: &[u8]) -> Vec<u8>;

    /// Any bytes behind a header with their right checksum and their right length, and a stop.
    fn enclose(covered: &[u8]) -> Vec<u8>;
}

/// A reading, and which it is of what is counted of its device alone.
pub struct Seen {
    pub answer: u8,
    pub used: usize,
    pub packet: Option<SeenPacket>,
    pub own: Vec<String>,
}

/// A packet that was read: the number of its command, its data, and all its bytes.
pub struct SeenPacket {
    pub command: u16,
    pub data: Vec<u8>,
    pub whole: Vec<u8>,
}

/// A writing, with the number of its command if that is carried.
pub struct Sent {
    pub command: Option<u16>,
    pub written: Written,
    pub own: Vec<String>,
}
