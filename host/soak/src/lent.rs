//! Lent memory.

use crate::pick::any;
use rand::rngs::SmallRng;
use rand::{Rng, RngCore};
use yarrowbell::raw::Part;

/// A buffer of random bytes for a ring of this capacity, and a part at an odd place of it, often
/// with more bytes behind.
pub fn lent(rng: &mut SmallRng, capacity: usize) -> (Vec<u8>, Part) {
    let offset = 2 * rng.gen_range(0..8) + 1;
    let mut buffer = vec![0; offset + capacity + rng.gen_range(0..16)];
    rng.fill_bytes(&mut buffer);
    (buffer, Part { offset, size: capacity })
}

/// Lays whole records of random bodies from `start` on, as many as a random room has place for, and
/// hands back how many bytes they have.
pub fn lay(rng: &mut SmallRng, part: &mut [u8], start: usize) -> usize {
    let room = if rng.gen() { part.len() } else { rng.gen_range(0..=part.len()) };
    let mut used = 0;
    loop {
        let (kind, length) = any(rng, &[(1, 7), (2, 9), (3, 6)]);
        if used + length > room {
            return used;
        }
        part[(start + used) % part.len()] = kind;
        used += length;
    }
}
