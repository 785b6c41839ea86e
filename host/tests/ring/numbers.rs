//! The numbers of a ring at their bounds: 12.

use crate::{agree, random};
use independent::Part;
use rand::Rng;

/// Numbers past every bound; among them some that would be small with their high bits lost.
const HUGE: [usize; 6] =
    [65_536, 65_536 + 16, 1 << 31, (1 << 31) + 16, u32::MAX as usize - 1, u32::MAX as usize];

/// The part has the size that the capacity asks for, and is in the buffer where one is so long.
#[test]
fn capacities() {
    random::seeded(0..200, |rng| {
        let buffer = random::empty(rng, 4096 + 100, 0);
        let small = 0..=20;
        for capacity in small.chain(4090..=4110).chain(HUGE) {
            let mut placed = buffer.clone();
            placed.ring.capacity = capacity;
            placed.at = Part { offset: rng.gen_range(0..=31), size: capacity };
            if (16..=4096).contains(&capacity) {
                assert_eq!(agree::all(rng, &placed), Ok(()), "{capacity}");
            } else {
                agree::all_refuse(rng, &placed, 12);
                placed.at.size = 16;
                agree::all_refuse(rng, &placed, 12);
            }
        }
    });
}

#[test]
fn starts() {
    random::seeded(1_000..1_100, |rng| {
        let around = 16..=60;
        for capacity in around.chain([4095, 4096]) {
            let mut placed = random::proper(rng, capacity);
            // With no byte used every start in the part is right.
            placed.ring.used = 0;
            for start in [0, 1, capacity - 2, capacity - 1] {
                placed.ring.start = start;
                assert_eq!(agree::all(rng, &placed), Ok(()), "{start} of {capacity}");
            }
            let outside = [capacity, capacity + 1, 2 * capacity - 1, 2 * capacity];
            for start in outside.into_iter().chain(HUGE) {
                placed.ring.start = start;
                agree::all_refuse(rng, &placed, 12);
            }
        }
    });
}

/// A full ring is good, one with a byte more is not.
#[test]
fn used_bytes() {
    random::seeded(2_000..2_100, |rng| {
        let around = 18..=60;
        for capacity in around.chain([4095, 4096]) {
            let start = rng.gen_range(0..capacity);
            let placed = random::empty(rng, capacity, start);
            let kinds = random::filling(rng, capacity);
            let mut placed = random::holding(rng, placed, &kinds);
            assert_eq!(placed.ring.used, capacity);
            assert_eq!(agree::all(rng, &placed), Ok(()), "{placed:?}");
            let more = [capacity + 1, capacity + 2, 2 * capacity];
            for used in more.into_iter().chain(HUGE) {
                placed.ring.used = used;
                agree::all_refuse(rng, &placed, 12);
            }
        }
    });
}

/// Any numbers, near the bounds and far off.
#[test]
fn any_numbers() {
    let bounds = [0, 1, 15, 16, 17, 4095, 4096, 4097];
    let all: Vec<usize> = bounds.into_iter().chain(HUGE).collect();
    random::seeded(10_000..60_000, |rng| {
        let capacity = random::capacity(rng);
        let mut placed = random::proper(rng, capacity);
        let ring = &mut placed.ring;
        for number in [&mut ring.capacity, &mut ring.start, &mut ring.used] {
            let near = (*number + rng.gen_range(0..=2)).saturating_sub(1);
            match rng.gen_range(0..6) {
                0 => *number = random::any(rng, &all),
                1 => *number = near,
                2 => *number = rng.gen_range(0..=capacity),
                _ => {}
            }
        }
        if rng.gen() {
            placed.at.size = placed.ring.capacity;
        }
        if rng.gen_range(0..8) == 0 {
            placed.at.offset = random::any(rng, &all);
        }
        let (ring, answer) = (placed.ring, agree::all(rng, &placed));
        let good = (16..=4096).contains(&ring.capacity)
            && ring.start < ring.capacity
            && ring.used <= ring.capacity;
        assert_eq!(answer == Err(12), !good, "{placed:?}");
    });
}
