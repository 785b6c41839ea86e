//! The RehaMove3, for what is tried on every device.

pub use crate::random_pulses::{command, packet};
pub use independent::rehamove3::{compose, read as independently, Reading};
use rand::rngs::SmallRng;
use rand::Rng;
pub use soak::packets::rehamove3::RehaMove3 as Device;
pub use yarrowbell::rehamove3::{packets, Command, NotRead, LONGEST_DATA, LONGEST_WRITTEN};

/// An Ll_stop.
pub const WHOLE: [u8; 12] =
    [0xF0, 0x81, 0x55, 0x81, 0x59, 0x81, 0x9C, 0x81, 0x78, 0x08, 0x04, 0x0F];

/// Any packet number, most often a good one.
pub fn number(rng: &mut SmallRng) -> u8 {
    if rng.gen_ratio(1, 20) {
        rng.gen()
    } else {
        rng.gen_range(0..64)
    }
}
