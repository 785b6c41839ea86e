//! Bytes that a reader is measured on.

use rand::rngs::SmallRng;
use rand::{Rng, SeedableRng};

/// Table 6 of source 000, table 3 of source 002.
pub const START: u8 = 0xF0;
const STOP: u8 = 0x0F;
const STUFFING: u8 = 0x81;

/// Random bytes of which none starts, stops or stuffs anything.
pub fn unmarked(length: usize) -> Vec<u8> {
    random(length, |byte| ![START, STOP, STUFFING].contains(&byte))
}

/// Random bytes, starts among them, of which none stops a packet.
pub fn garbage(length: usize) -> Vec<u8> {
    random(length, |byte| byte != STOP)
}

/// The packet with a bit changed at the place of its checksum.
pub fn damaged(mut packet: Vec<u8>, checksum: usize) -> Vec<u8> {
    packet[checksum] ^= 1;
    packet
}

fn random(length: usize, allowed: impl Fn(u8) -> bool) -> Vec<u8> {
    let mut rng = SmallRng::seed_from_u64(1);
    std::iter::repeat_with(|| rng.gen()).filter(|&byte| allowed(byte)).take(length).collect()
}
