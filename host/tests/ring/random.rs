//! Random records and rings.

use crate::lent::Lent;
use crate::placed::Placed;
pub use crate::seeded::seeded;
use independent::{Part, Record, Ring, Trace};
use rand::rngs::SmallRng;
use rand::Rng;

/// The kind bytes that there are.
pub const KINDS: [u8; 3] = [1, 2, 3];

/// How many bytes a record of this kind has.
pub fn length(kind: u8) -> usize {
    [7, 9, 6][usize::from(kind) - 1]
}

/// A record of this kind and of any values.
pub fn record(rng: &mut SmallRng, kind: u8) -> Record {
    let clock = u32::from_le_bytes(std::array::from_fn(|_| byte(rng)));
    match kind {
        1 => Record::Answer { clock, ident: byte(rng), answer: byte(rng) },
        2 => {
            let width = u16::from_le_bytes([byte(rng), byte(rng)]);
            Record::Pulse { clock, channel: byte(rng), width, current: byte(rng) }
        }
        3 => Record::Trip { clock, cause: byte(rng) },
        _ => unreachable!("no record has the kind {kind}"),
    }
}

/// Any byte; one time in four one that is a kind, or nearly.
fn byte(rng: &mut SmallRng) -> u8 {
    if rng.gen_range(0..4) == 0 {
        rng.gen_range(0..=4)
    } else {
        rng.gen()
    }
}

/// From 1 to 6 kinds, out of which a history has its own: often of one kind far more than of
/// another, or of one kind alone.
pub fn kinds(rng: &mut SmallRng) -> Vec<u8> {
    (0..rng.gen_range(1..=6)).map(|_| any(rng, &KINDS)).collect()
}

pub fn any<T: Copy>(rng: &mut SmallRng, these: &[T]) -> T {
    these[rng.gen_range(0..these.len())]
}

/// Any good capacity; most are small, so that rings are short of room.
pub fn capacity(rng: &mut SmallRng) -> usize {
    match rng.gen_range(0..20) {
        0 => any(rng, &[16, 17, 18, 4094, 4095, 4096]),
        1 => rng.gen_range(16..=4096),
        _ => rng.gen_range(16..=80),
    }
}

/// An empty ring in a buffer of random bytes, with up to 31 of them on either side of the part.
pub fn empty(rng: &mut SmallRng, capacity: usize, start: usize) -> Placed {
    let (offset, behind) = (rng.gen_range(0..=31), rng.gen_range(0..=31));
    Placed {
        at: Part { offset, size: capacity },
        ring: Ring { capacity, start, used: 0 },
        buffer: Lent::random(rng, offset + capacity + behind),
    }
}

/// The same ring, and its part's bytes, at another place of another buffer.
pub fn moved(rng: &mut SmallRng, placed: &Placed) -> Placed {
    let Placed { at, ring, buffer } = placed;
    let mut moved = empty(rng, ring.capacity, ring.start);
    let to = moved.at;
    let bytes = &buffer.slice()[at.offset..][..at.size];
    moved.buffer.slice_mut()[to.offset..][..to.size].copy_from_slice(bytes);
    Placed { ring: *ring, ..moved }
}

/// The ring with records of these kinds pushed on it.
pub fn holding(rng: &mut SmallRng, mut placed: Placed, kinds: &[u8]) -> Placed {
    let buffer = placed.buffer.slice().to_vec();
    let mut trace = Trace::new(buffer, placed.at, placed.ring.start);
    for &kind in kinds {
        trace.push(record(rng, kind));
    }
    placed.take_over(&trace);
    placed
}

/// A ring as pushes leave it: started anywhere, with none to more records than it holds.
pub fn proper(rng: &mut SmallRng, capacity: usize) -> Placed {
    let start = rng.gen_range(0..capacity);
    let placed = empty(rng, capacity, start);
    let pushes = rng.gen_range(0..=capacity / 4);
    let kinds = kinds(rng);
    let pushed: Vec<u8> = (0..pushes).map(|_| any(rng, &kinds)).collect();
    holding(rng, placed, &pushed)
}

/// The kinds of random records that have this many bytes together.
pub fn filling(rng: &mut SmallRng, bytes: usize) -> Vec<u8> {
    let mut left = bytes;
    let mut kinds = Vec::new();
    while left > 0 {
        let fits = |kind: &u8| left.checked_sub(length(*kind)).is_some_and(total);
        let fitting: Vec<u8> = KINDS.into_iter().filter(fits).collect();
        let kind = any(rng, &fitting);
        left -= length(kind);
        kinds.push(kind);
    }
    kinds
}

/// Whether there are records of this many bytes together: all numbers but these are sums of 6, 7
/// and 9.
pub fn total(bytes: usize) -> bool {
    ![1, 2, 3, 4, 5, 8, 10, 11, 17].contains(&bytes)
}
