//! "The ring holds the longest tail of all records so far whose bytes total at most the capacity":
//! that tail taken anew from all records.

use crate::placed::Placed;
use crate::{agree, random};
use independent::{tail, Record};
use rand::rngs::SmallRng;
use rand::Rng;

fn holds_the_tail(rng: &mut SmallRng, placed: &Placed, all: &[Record]) {
    let capacity = placed.ring.capacity;
    let expected: Vec<u8> = tail(all, capacity).iter().flat_map(Record::bytes).collect();
    assert_eq!(agree::read_out(rng, placed, capacity), Ok(expected), "{placed:?} after {all:?}");
}

/// Pushes random records on an empty ring. `look` gets what each leaves, and hands on what the next
/// gets.
fn pushes(
    rng: &mut SmallRng,
    mut placed: Placed,
    count: usize,
    look: impl Fn(&mut SmallRng, Placed, &[Record]) -> Placed,
) {
    let kinds = random::kinds(rng);
    let mut all = Vec::new();
    for _ in 0..count {
        let kind = random::any(rng, &kinds);
        let new = random::record(rng, kind);
        all.push(new);
        let pushed = agree::push(&mut placed, new);
        assert!(pushed.is_ok(), "{placed:?} after {all:?}");
        placed = look(rng, placed, &all);
    }
}

#[test]
fn after_every_push_of_a_short_history() {
    random::seeded(0..3_000, |rng| {
        let capacity = rng.gen_range(16..=160);
        let start = rng.gen_range(0..capacity);
        let placed = random::empty(rng, capacity, start);
        let count = rng.gen_range(1..=80);
        pushes(rng, placed, count, |rng, placed, all| {
            holds_the_tail(rng, &placed, all);
            placed
        });
    });
}

#[test]
fn at_the_end_of_a_long_history() {
    random::seeded(10_000..10_200, |rng| {
        let capacity = random::capacity(rng);
        let placed = random::empty(rng, capacity, 0);
        let count = rng.gen_range(800..=1_600);
        pushes(rng, placed, count, |rng, placed, all| {
            if all.len() == count {
                holds_the_tail(rng, &placed, all);
            }
            placed
        });
    });
}

/// "inside the lent buffer the part of the box's capacity, holding what that call left": each call
/// gets another buffer, and the part at another place in it.
#[test]
fn in_parts_that_move_between_calls() {
    random::seeded(50_000..51_000, |rng| {
        let capacity = random::capacity(rng);
        let placed = random::empty(rng, capacity, 0);
        pushes(rng, placed, 100, |rng, placed, all| {
            let moved = random::moved(rng, &placed);
            holds_the_tail(rng, &moved, all);
            random::moved(rng, &moved)
        });
    });
}

/// A record that just fits drops nothing; one byte less room drops the oldest record, and it alone
/// where that makes room.
#[test]
fn a_record_drops_the_oldest_only_when_it_must() {
    random::seeded(20_000..40_000, |rng| {
        let kinds = random::kinds(rng);
        let count = rng.gen_range(2..=12);
        let mut choose = || -> Record {
            let kind = random::any(rng, &kinds);
            random::record(rng, kind)
        };
        let all: Vec<Record> = (0..count).map(|_| choose()).collect();
        let lengths: Vec<usize> = all.iter().map(|record| record.bytes().len()).collect();
        let total: usize = lengths.iter().sum();
        let oldest = lengths[0];
        for (capacity, kept) in [(total, total), (total - 1, total - oldest)] {
            if capacity < 16 {
                continue;
            }
            let start = rng.gen_range(0..capacity);
            let mut placed = random::empty(rng, capacity, start);
            for &new in &all {
                let pushed = agree::push(&mut placed, new);
                assert!(pushed.is_ok(), "{placed:?} after {all:?}");
            }
            assert_eq!(placed.ring.used, kept, "{placed:?} after {all:?}");
            holds_the_tail(rng, &placed, &all);
        }
    });
}
