//! All packets of a capture.

use super::{read, Packet, LONGEST_DATA};
use crate::packets::{self, Captured, NotRead};

/// The packets of a capture, one behind the other.
pub type Packets<'a> = packets::Packets<'a, Packet>;

/// What was found behind the packet before, or at the capture's start.
pub type Found = packets::Found<Packet>;

impl Captured for Packet {
    const LONGEST_DATA: usize = LONGEST_DATA;

    fn read(bytes: &[u8], data: &mut [u8]) -> Result<Packet, NotRead> {
        read(bytes, data)
    }

    fn size(&self) -> usize {
        self.size
    }

    fn used(&self) -> usize {
        self.used
    }
}

/// Reads all packets of a capture, those that are refused among them. The last is
/// [`NotRead::Unfinished`] if anything is left over behind the last stop.
///
/// ```
/// use yarrowbell::rehamove3::{packets, Command, NotRead};
///
/// let stop = [0xF0, 0x81, 0x55, 0x81, 0x59, 0x81, 0x9C, 0x81, 0x78, 0x08, 0x04, 0x0F];
/// let damaged = [0xF0, 0x81, 0x55, 0x81, 0x59, 0x81, 0x9C, 0x81, 0x78, 0x08, 0x05, 0x0F];
/// let capture = [&stop[..], &damaged, &[0x33], &stop, &stop[..5]].concat();
///
/// let found: Vec<_> = packets(&capture).map(|found| (found.place, found.packet)).collect();
/// assert_eq!(found[0].1.map(|packet| packet.command), Ok(Command::LlStop));
/// assert_eq!(found[1], (12..24, Err(NotRead::WrongChecksum { used: 12 })));
/// assert_eq!(found[2].0, 24..37);
/// assert_eq!(found[3], (37..42, Err(NotRead::Unfinished)));
/// assert_eq!(found.len(), 4);
/// ```
pub fn packets(capture: &[u8]) -> Packets<'_> {
    Packets::of(capture)
}
