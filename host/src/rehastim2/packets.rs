//! All packets of a capture.

use super::{read, Packet, LONGEST_DATA};
use crate::packets::{self, Captured, NotRead};

/// The packets of a capture, one behind the other.
pub type Packets<'a> = packets::Packets<'a, Packet>;

/// What was found behind the packet before, or at the capture's start.
pub type Found = packets::Found<Packet>;

impl Captured for Packet {
    const LONGEST_DATA: usize = LONGEST_DATA;

    fn read(bytes: &[u8], data: &mut [u8]) -> Result<Packet, NotRead> {
        read(bytes, data)
    }

    fn size(&self) -> usize {
        self.size
    }

    fn used(&self) -> usize {
        self.used
    }
}

/// Reads all packets of a capture, those that are refused among them. The last is
/// [`NotRead::Unfinished`] if anything is left over behind the last stop.
///
/// ```
/// use yarrowbell::rehastim2::{packets, Command, NotRead};
///
/// let watchdog = [0xF0, 0x81, 0x49, 0x81, 0x57, 0x00, 0x04, 0x0F];
/// let damaged = [0xF0, 0x81, 0x48, 0x81, 0x57, 0x00, 0x04, 0x0F];
/// let capture = [&watchdog[..], &damaged, &[0x33], &watchdog, &watchdog[..5]].concat();
///
/// let found: Vec<_> = packets(&capture).map(|found| (found.place, found.packet)).collect();
/// assert_eq!(found[0].1.map(|packet| packet.command), Ok(Command::Watchdog));
/// assert_eq!(found[1], (8..16, Err(NotRead::WrongChecksum { used: 8 })));
/// assert_eq!(found[2].0, 16..25);
/// assert_eq!(found[3], (25..30, Err(NotRead::Unfinished)));
/// assert_eq!(found.len(), 4);
/// ```
pub fn packets(bytes: &[u8]) -> Packets<'_> {
    Packets::of(bytes)
}
