//! Several rings in one buffer, side by side.

use crate::lent::Lent;
use crate::placed::Placed;
use crate::{agree, random};
use independent::{tail, Part, Record, Ring};
use rand::Rng;

/// Pushed on in turns, each of them holds its own tail.
#[test]
fn rings_keep_to_their_parts() {
    random::seeded(0..500, |rng| {
        let mut offset = 0;
        let mut rings = Vec::new();
        for _ in 0..3 {
            let capacity = rng.gen_range(16..=50);
            let at = Part { offset, size: capacity };
            rings.push((at, Ring { capacity, start: 0, used: 0 }, Vec::new()));
            offset += capacity;
        }
        let mut buffer = Lent::random(rng, offset);
        for _ in 0..90 {
            let (at, ring, all) = &mut rings[rng.gen_range(0..3)];
            let kind = random::any(rng, &random::KINDS);
            let new = random::record(rng, kind);
            all.push(new);
            let mut placed = Placed { at: *at, ring: *ring, buffer };
            let pushed = agree::push(&mut placed, new);
            assert!(pushed.is_ok(), "{placed:?}");
            *ring = placed.ring;
            buffer = placed.buffer;
            for (at, ring, all) in &rings {
                let placed = Placed { at: *at, ring: *ring, buffer: buffer.clone() };
                let bytes: Vec<u8> =
                    tail(all, ring.capacity).iter().flat_map(Record::bytes).collect();
                assert_eq!(agree::read_out(rng, &placed, bytes.len()), Ok(bytes), "{placed:?}");
            }
        }
    });
}
