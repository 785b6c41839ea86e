//! Where a part lies: 13.

use crate::lent::Lent;
use crate::placed::Placed;
use crate::{agree, random};
use independent::{Part, Ring};
use rand::Rng;

/// A part at the very end of the buffer is inside, one byte further it is not.
#[test]
fn offsets_near_the_end_of_the_buffer() {
    random::seeded(0..500, |rng| {
        let capacity = random::capacity(rng);
        let mut placed = random::proper(rng, capacity);
        placed.ring.used = 0;
        let last = placed.buffer.slice().len() - capacity;
        for offset in [0, last / 2, last] {
            placed.at.offset = offset;
            assert_eq!(agree::all(rng, &placed), Ok(()), "{placed:?}");
        }
        let length = last + capacity;
        for offset in [last + 1, last + 2, length - 1, length, length + 1, 2 * length, 1 << 32] {
            placed.at.offset = offset;
            agree::all_refuse(rng, &placed, 13);
        }
    });
}

/// Ends past what a usize holds, which would be small with their high bits lost.
#[test]
fn ends_past_all_numbers() {
    random::seeded(1_000..1_500, |rng| {
        let capacity = random::capacity(rng);
        let mut placed = random::proper(rng, capacity);
        for end in [0, 1, capacity / 2, capacity - 1] {
            placed.at.offset = end.wrapping_sub(capacity);
            agree::all_refuse(rng, &placed, 13);
        }
        for high in [1 << 31, 1 << 32, 1 << 48, 1 << 63, usize::MAX - 31] {
            placed.at.offset = high | rng.gen_range(0..=31);
            agree::all_refuse(rng, &placed, 13);
        }
    });
}

#[test]
fn sizes_that_are_not_the_capacity() {
    random::seeded(2_000..2_500, |rng| {
        let capacity = random::capacity(rng);
        let mut placed = random::proper(rng, capacity);
        let length = placed.buffer.slice().len();
        let near = [capacity - 1, capacity + 1, capacity - 16, capacity + 16];
        let far = [0, 1, length, length + 1, 1 << 32, (1 << 32) + capacity, usize::MAX];
        for size in near.into_iter().chain(far) {
            if size == capacity {
                // The part is the whole buffer.
                continue;
            }
            placed.at.size = size;
            agree::all_refuse(rng, &placed, 13);
            let before = Part { offset: 0, size };
            agree::all_refuse(rng, &Placed { at: before, ..placed.clone() }, 13);
            let overflowing = Part { offset: usize::MAX - 15, size };
            agree::all_refuse(rng, &Placed { at: overflowing, ..placed.clone() }, 13);
        }
    });
}

/// Buffers shorter than the part, down to none at all.
#[test]
fn buffers_that_are_too_short() {
    for capacity in [16, 17, 32, 100, 4095, 4096] {
        random::seeded(3_000..3_005, |rng| {
            let short = 0..=3;
            for length in short.chain([capacity / 2, capacity - 2, capacity - 1, capacity]) {
                let placed = Placed {
                    at: Part { offset: 0, size: capacity },
                    ring: Ring { capacity, start: rng.gen_range(0..capacity), used: 0 },
                    buffer: Lent::random(rng, length),
                };
                if length < capacity {
                    agree::all_refuse(rng, &placed, 13);
                } else {
                    assert_eq!(agree::all(rng, &placed), Ok(()), "{placed:?}");
                }
            }
        });
    }
}

/// The same ring anywhere in a buffer is the same ring.
#[test]
fn every_offset() {
    random::seeded(4_000..4_200, |rng| {
        let capacity = rng.gen_range(16..=80);
        let inside = random::proper(rng, capacity);
        let used = inside.ring.used;
        let tail = agree::read_out(rng, &inside, used);
        assert!(tail.is_ok(), "{inside:?}");
        let bytes = &inside.buffer.slice()[inside.at.offset..][..capacity];
        for offset in 0..=40 {
            let mut moved = inside.clone();
            moved.at.offset = offset;
            moved.buffer = Lent::random(rng, capacity + 40);
            moved.buffer.slice_mut()[offset..][..capacity].copy_from_slice(bytes);
            assert_eq!(agree::read_out(rng, &moved, used), tail, "{moved:?}");
            assert_eq!(agree::all(rng, &moved), Ok(()), "{moved:?}");
        }
    });
}
