//! "A record is known by its kind byte alone": kinds put in the place of others, and records cut.

use crate::placed::Placed;
use crate::{agree, random};
use rand::rngs::SmallRng;
use rand::Rng;

/// A ring with some records, and where each of them begins among the used bytes.
fn some_records(rng: &mut SmallRng, capacity: usize) -> (Placed, Vec<usize>) {
    let start = rng.gen_range(0..capacity);
    let placed = random::empty(rng, capacity, start);
    let sums: Vec<usize> = (6..=capacity).filter(|&bytes| random::total(bytes)).collect();
    let bytes = random::any(rng, &sums);
    let kinds = random::filling(rng, bytes);
    let mut begins = vec![0];
    for kind in &kinds {
        begins.push(begins[begins.len() - 1] + random::length(*kind));
    }
    assert_eq!(begins.pop(), Some(bytes));
    let placed = random::holding(rng, placed, &kinds);
    assert_eq!(placed.ring.used, bytes);
    (placed, begins)
}

/// Every kind in the place of every record's: an unknown one is refused wherever it stands.
#[test]
fn every_kind_in_every_place() {
    random::seeded(0..200, |rng| {
        let capacity = rng.gen_range(16..=60);
        let (placed, begins) = some_records(rng, capacity);
        for begin in begins {
            for kind in 0..=255 {
                let mut spoilt = placed.clone();
                *spoilt.byte_mut(begin) = kind;
                let answer = agree::all(rng, &spoilt);
                if !random::KINDS.contains(&kind) {
                    assert_eq!(answer, Err(14), "kind {kind} at {begin} of {spoilt:?}");
                }
            }
        }
    });
}

/// Every kind as the only wrong one, at the last record of rings of all sizes.
#[test]
fn every_unknown_kind_of_the_last_record() {
    random::seeded(1_000..1_040, |rng| {
        for kind in (0..=0).chain(4..=255) {
            let capacity = random::capacity(rng);
            let (mut placed, begins) = some_records(rng, capacity);
            assert_eq!(agree::ready(&placed), Ok(()), "{placed:?}");
            *placed.byte_mut(begins[begins.len() - 1]) = kind;
            assert_eq!(agree::all(rng, &placed), Err(14), "kind {kind}, {placed:?}");
        }
    });
}

/// Every value of every other byte is a body's, and changes nothing.
#[test]
fn bodies_are_any_bytes() {
    random::seeded(2_000..2_020, |rng| {
        let capacity = rng.gen_range(16..=40);
        let (placed, begins) = some_records(rng, capacity);
        for number in 0..placed.ring.used {
            if begins.contains(&number) {
                continue;
            }
            for byte in 0..=255 {
                let mut other = placed.clone();
                *other.byte_mut(number) = byte;
                assert_eq!(agree::all(rng, &other), Ok(()), "byte {number} of {other:?}");
            }
        }
    });
}

/// The bytes that are not used do not count.
#[test]
fn unused_bytes_are_any_bytes() {
    random::seeded(3_000..5_000, |rng| {
        let capacity = rng.gen_range(16..=80);
        let mut placed = random::proper(rng, capacity);
        let used = placed.ring.used;
        let tail = agree::read_out(rng, &placed, used);
        assert!(tail.is_ok(), "{placed:?}");
        for number in used..capacity {
            *placed.byte_mut(number) = random::any(rng, &[0, 1, 2, 3, 4, 255]);
        }
        assert_eq!(agree::read_out(rng, &placed, used), tail, "{placed:?}");
        assert_eq!(agree::all(rng, &placed), Ok(()), "{placed:?}");
    });
}

/// A last record that lacks bytes: from its last one to all but its kind.
#[test]
fn last_records_that_are_cut() {
    random::seeded(6_000..9_000, |rng| {
        let capacity = random::capacity(rng);
        let (mut placed, begins) = some_records(rng, capacity);
        let (last, end) = (begins[begins.len() - 1], placed.ring.used);
        for used in last + 1..end {
            placed.ring.used = used;
            assert_eq!(agree::all(rng, &placed), Err(14), "{placed:?}");
        }
        placed.ring.used = last;
        assert_eq!(agree::all(rng, &placed), Ok(()), "{placed:?}");
    });
}

/// One used byte behind the last record is no whole record, whatever it is.
#[test]
fn one_used_byte_too_many() {
    random::seeded(10_000..10_300, |rng| {
        let capacity = rng.gen_range(16..=60);
        let (mut placed, _) = some_records(rng, capacity);
        let behind = placed.ring.used;
        if behind == capacity {
            return;
        }
        placed.ring.used = behind + 1;
        for kind in 0..=255 {
            *placed.byte_mut(behind) = kind;
            assert_eq!(agree::all(rng, &placed), Err(14), "kind {kind}, {placed:?}");
        }
    });
}

/// A second record whose kind stands before the part's end, at it or behind it is known by that
/// kind, and refused by it, as elsewhere.
#[test]
fn records_across_the_end() {
    random::seeded(20_000..20_050, |rng| {
        for capacity in [16, 17, 31, 4096] {
            for start in (0..=1).chain(capacity - 12..capacity) {
                for kind in random::KINDS {
                    let empty = random::empty(rng, capacity, start);
                    let before = random::any(rng, &random::KINDS);
                    let mut placed = random::holding(rng, empty, &[before, kind]);
                    let first = random::length(before);
                    if placed.ring.used <= first {
                        // Two pulses are more than the smallest rings hold.
                        continue;
                    }
                    assert_eq!(agree::all(rng, &placed), Ok(()), "{placed:?}");
                    *placed.byte_mut(first) = rng.gen_range(4..=255);
                    assert_eq!(agree::all(rng, &placed), Err(14), "{placed:?}");
                }
            }
        }
    });
}
