//! Random bytes for readers of packets.

use rand::rngs::SmallRng;
use rand::Rng;
use std::ops::RangeInclusive;

/// The bytes that mean something in a packet: start, stop and stuffing byte, what these are stuffed to,
/// and the stuffing key.
const MARKS: [u8; 7] = [0xF0, 0x0F, 0x81, 0xA5, 0x5A, 0xD4, 0x55];

/// Any byte, one time in `rarely` a mark.
pub fn byte(rng: &mut SmallRng, rarely: u32) -> u8 {
    if rng.gen_ratio(1, rarely) {
        MARKS[rng.gen_range(0..MARKS.len())]
    } else {
        rng.gen()
    }
}

/// From 0 to `longest` bytes, few of them marks, or many, or most.
pub fn bytes(rng: &mut SmallRng, longest: usize) -> Vec<u8> {
    let rarely = [50, 5, 2][rng.gen_range(0..3)];
    (0..rng.gen_range(0..=longest)).map(|_| byte(rng, rarely)).collect()
}

/// One time in eight one of the edges.
pub fn edge_or(rng: &mut SmallRng, edges: &[u16], range: RangeInclusive<u16>) -> u16 {
    if rng.gen_ratio(1, 8) {
        edges[rng.gen_range(0..edges.len())]
    } else {
        rng.gen_range(range)
    }
}

/// The bytes with a few of them replaced, put in or taken out.
pub fn damaged(rng: &mut SmallRng, mut bytes: Vec<u8>) -> Vec<u8> {
    for _ in 0..rng.gen_range(1..=3) {
        let place = rng.gen_range(0..=bytes.len());
        let other = byte(rng, 2);
        match rng.gen_range(0..4) {
            0 => bytes.insert(place, other),
            _ if place == bytes.len() => {}
            1 => bytes[place] = other,
            2 => bytes[place] ^= 1 << rng.gen_range(0..8),
            _ => drop(bytes.remove(place)),
        }
    }
    bytes
}
