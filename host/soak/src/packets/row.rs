//! Random rows of bytes, for a reader of packets.

use super::device::Device;
use crate::pick::{any, once_in, weighted};
use crate::random_bytes::{byte, bytes, damaged};
use rand::rngs::SmallRng;
use rand::Rng;

/// Garbage, and packets whole, damaged and cut short, one behind the other. Its allocation has exactly
/// its size.
pub(super) fn row<D: Device>(rng: &mut SmallRng) -> Box<[u8]> {
    (0..rng.gen_range(0..=12)).flat_map(|_| piece::<D>(rng)).collect()
}

fn piece<D: Device>(rng: &mut SmallRng) -> Vec<u8> {
    match weighted(rng, &[8, 4, 4, 3, 2, 3]) {
        0 => D::packet(rng),
        1 => other::<D>(rng),
        2 => {
            let packet = D::packet(rng);
            damaged(rng, packet)
        }
        3 => cut::<D>(rng),
        4 => covered::<D>(rng),
        _ => bytes(rng, 20),
    }
}

/// A packet of any number with data of any length, to one byte too many. One time in two no byte of it
/// is stuffed.
fn other<D: Device>(rng: &mut SmallRng) -> Vec<u8> {
    let longest = D::LONGEST_DATA;
    let size = if once_in(rng, 2) {
        any(rng, &[0, longest - 1, longest, longest + 1])
    } else {
        rng.gen_range(0..=longest + 1)
    };
    let (plain, rarely) = (rng.gen(), any(rng, &[50, 5, 2]));
    // Neither F0 nor 0F nor 81 is left.
    let mask = if plain { 0x7E } else { 0xFF };
    let data: Vec<u8> = (0..size).map(|_| byte(rng, rarely) & mask).collect();
    D::with_data(rng, &data)
}

/// The first bytes of a packet, or the last.
fn cut<D: Device>(rng: &mut SmallRng) -> Vec<u8> {
    let packet = D::packet(rng);
    let (first, last) = packet.split_at(rng.gen_range(0..packet.len()));
    any(rng, &[first, last]).to_vec()
}

/// Any bytes behind a header with their right checksum and their right length, and a stop.
pub fn covered<D: Device>(rng: &mut SmallRng) -> Vec<u8> {
    let longest = [4, 20, D::TOO_LONG][rng.gen_range(0..3)];
    D::enclose(&bytes(rng, longest))
}
