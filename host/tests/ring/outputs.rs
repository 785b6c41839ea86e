//! Outputs of every length. `agree::read_out` compares all bytes in and around them.

use crate::{agree, random};
use rand::Rng;

#[test]
fn every_length() {
    random::seeded(0..1_000, |rng| {
        let capacity = rng.gen_range(16..=60);
        let placed = random::proper(rng, capacity);
        let used = placed.ring.used;
        for room in 0..=capacity + 20 {
            let answer = agree::read_out(rng, &placed, room).map(|tail| tail.len());
            let expected = if room < used { Err(16) } else { Ok(used) };
            assert_eq!(answer, expected, "{room}, {placed:?}");
        }
    });
}

#[test]
fn lengths_near_the_used_bytes_of_large_rings() {
    for capacity in [1000, 2048, 4095, 4096] {
        random::seeded(1_000..1_050, |rng| {
            let placed = random::proper(rng, capacity);
            let used = placed.ring.used;
            for room in used.saturating_sub(10)..=used + 10 {
                let answer = agree::read_out(rng, &placed, room).map(|tail| tail.len());
                let expected = if room < used { Err(16) } else { Ok(used) };
                assert_eq!(answer, expected, "{room}, {placed:?}");
            }
        });
    }
}

/// Nothing is read out of an empty ring, and no output is too short for that.
#[test]
fn empty_rings() {
    random::seeded(2_000..4_000, |rng| {
        let capacity = random::capacity(rng);
        let start = rng.gen_range(0..capacity);
        let placed = random::empty(rng, capacity, start);
        assert_eq!(agree::ready(&placed), Ok(()), "{placed:?}");
        for room in [0, 1, capacity] {
            assert_eq!(agree::read_out(rng, &placed, room), Ok(vec![]), "{room}, {placed:?}");
        }
    });
}

/// Every start of a full ring: it is read out to its last byte, round at the part's end.
#[test]
fn full_rings() {
    for capacity in 18..=48 {
        for start in 0..capacity {
            random::seeded(5_000..5_010, |rng| {
                let placed = random::empty(rng, capacity, start);
                let kinds = random::filling(rng, capacity);
                let placed = random::holding(rng, placed, &kinds);
                let part = &placed.buffer.slice()[placed.at.offset..][..capacity];
                let turned = [&part[start..], &part[..start]].concat();
                assert_eq!(agree::read_out(rng, &placed, capacity), Ok(turned), "{placed:?}");
                assert_eq!(agree::read_out(rng, &placed, capacity - 1), Err(16), "{placed:?}");
            });
        }
    }
}
