//! Rings that no push left, and pushes on them.

use crate::lent::Lent;
use crate::placed::Placed;
use crate::{agree, random};
use independent::{Part, Ring};
use rand::rngs::SmallRng;
use rand::Rng;
use std::ops::{Range, RangeInclusive};

/// Some bits of a proper ring's part changed.
#[test]
fn changed_bits() {
    random::seeded(0..40_000, |rng| {
        let capacity = random::capacity(rng);
        let mut placed = random::proper(rng, capacity);
        for _ in 0..rng.gen_range(1..=4) {
            *placed.byte_mut(rng.gen_range(0..capacity)) ^= 1 << rng.gen_range(0..8);
        }
        let _ = agree::all(rng, &placed);
    });
}

/// A ring of good numbers in a buffer of any bytes, or of few that are no kinds.
fn garbage(rng: &mut SmallRng, capacity: usize) -> Placed {
    let (offset, behind) = (rng.gen_range(0..=9), rng.gen_range(0..=9));
    let mut buffer = Lent::random(rng, offset + capacity + behind);
    let known = random::any(rng, &[0.0, 0.5, 0.9, 0.99, 1.0]);
    for byte in buffer.slice_mut() {
        if rng.gen_bool(known) {
            *byte = random::any(rng, &random::KINDS);
        }
    }
    let used = match rng.gen_range(0..8) {
        0 => 0,
        1 | 2 => capacity,
        3 => capacity - 1,
        _ => rng.gen_range(0..=capacity),
    };
    let ring = Ring { capacity, start: rng.gen_range(0..capacity), used };
    Placed { at: Part { offset, size: capacity }, ring, buffer }
}

fn garbage_once(seeds: Range<u64>, capacities: RangeInclusive<usize>) {
    random::seeded(seeds, |rng| {
        let capacity = rng.gen_range(capacities.clone());
        let placed = garbage(rng, capacity);
        let _ = agree::all(rng, &placed);
    });
}

#[test]
fn garbage_in_small_rings() {
    garbage_once(100_000..300_000, 16..=60);
}

#[test]
fn garbage_in_large_rings() {
    garbage_once(300_000..302_000, 1000..=4096);
}

/// Pushes go on over what does not split, and every one of them is taken.
#[test]
fn garbage_pushed_on() {
    random::seeded(400_000..402_000, |rng| {
        let capacity = rng.gen_range(16..=200);
        let mut placed = garbage(rng, capacity);
        for _ in 0..100 {
            let kind = random::any(rng, &random::KINDS);
            let new = random::record(rng, kind);
            let before = placed.clone();
            let pushed = agree::push(&mut placed, new);
            assert!(pushed.is_ok(), "push of {new:?}, {before:?}");
            let _ = agree::ready(&placed);
            let _ = agree::read_out(rng, &placed, capacity);
        }
    });
}

/// A byte of an unknown kind is dropped alone: where none is known, just as many go as must.
#[test]
fn unknown_bytes_are_dropped_one_by_one() {
    random::seeded(500_000..510_000, |rng| {
        let capacity = rng.gen_range(16..=60);
        let mut placed = garbage(rng, capacity);
        for byte in placed.buffer.slice_mut() {
            *byte = random::any(rng, &[0, 4, 5, 0x81, 0x82, 0x83, 255]);
        }
        let ring = placed.ring;
        let kind = random::any(rng, &random::KINDS);
        let new = random::record(rng, kind);
        let total = ring.used + new.bytes().len();
        let dropped = total.saturating_sub(capacity);
        let start = (ring.start + dropped) % capacity;
        let left = Ring { capacity, start, used: total - dropped };
        assert_eq!(agree::push(&mut placed, new), Ok(left), "push of {new:?}, {placed:?}");
    });
}

/// A record that the used bytes cut goes with all that is left of them. A push comes to drop one in
/// the smallest ring alone: a pulse that lacks its last byte, for a new pulse.
#[test]
fn cut_records_are_dropped_with_the_rest() {
    random::seeded(600_000..600_100, |rng| {
        for used in 8..=16 {
            for start in 0..16 {
                let mut placed = random::empty(rng, 16, start);
                placed.ring.used = used;
                for number in 0..used - 8 {
                    *placed.byte_mut(number) = 0;
                }
                *placed.byte_mut(used - 8) = 2;
                let left = Ring { capacity: 16, start: (start + used) % 16, used: 9 };
                let new = random::record(rng, 2);
                assert_eq!(agree::push(&mut placed, new), Ok(left), "push of {new:?}, {placed:?}");
            }
        }
    });
}
