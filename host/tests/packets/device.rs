//! The RehaStim2, for what is tried on every device.

use crate::random_bytes::byte;
pub use crate::random_packets::{command, packet};
pub use independent::rehastim2::{compose, read as independently, Reading};
use rand::rngs::SmallRng;
pub use soak::packets::rehastim2::RehaStim2 as Device;
pub use yarrowbell::rehastim2::{packets, Command, NotRead, LONGEST_DATA, LONGEST_WRITTEN};

/// A Watchdog, the first five bytes of which are half a packet.
pub const WHOLE: [u8; 8] = [0xF0, 0x81, 0x49, 0x81, 0x57, 0, 4, 0x0F];

/// Any packet number.
pub fn number(rng: &mut SmallRng) -> u8 {
    byte(rng, 3)
}
