//! Long histories of one ring, compared after every call with the records pushed.

use crate::placed::Placed;
use crate::{agree, random};
use independent::{Record, Trace};
use rand::rngs::SmallRng;
use rand::Rng;
use std::ops::Range;

/// A ring of the library and the independent one with the same records.
struct Pair {
    placed: Placed,
    trace: Trace,
}

impl Pair {
    fn new(placed: Placed) -> Pair {
        let buffer = placed.buffer.slice().to_vec();
        let trace = Trace::new(buffer, placed.at, placed.ring.start);
        let pair = Pair { placed, trace };
        assert_eq!(pair.trace.ring(), pair.placed.ring);
        pair
    }

    fn push(&mut self, new: Record) {
        let before = self.placed.clone();
        self.trace.push(new);
        let left = agree::push(&mut self.placed, new);
        assert_eq!(left, Ok(self.trace.ring()), "push of {new:?}, {before:?}");
        let (found, expected) = (self.placed.buffer.slice(), self.trace.buffer());
        let differs = found.iter().zip(expected).position(|(found, expected)| found != expected);
        assert_eq!(differs, None, "push of {new:?}, {before:?}");
    }

    /// The ring is ready, and an output that is long enough gets all of it.
    fn look(&self, rng: &mut SmallRng) {
        assert_eq!(agree::ready(&self.placed), Ok(()), "{:?}", self.placed);
        let used = self.placed.ring.used;
        let room = match rng.gen_range(0..8) {
            0 => rng.gen_range(0..=used),
            1 => used.saturating_sub(1),
            2 | 3 => used + rng.gen_range(1..=20),
            _ => used,
        };
        let expected = if room < used { Err(16) } else { Ok(self.trace.bytes()) };
        assert_eq!(agree::read_out(rng, &self.placed, room), expected, "{:?}", self.placed);
    }
}

/// Looks at a ring when it is empty and after each of the pushes.
fn history(rng: &mut SmallRng, capacity: usize, start: usize, pushes: usize) {
    let mut pair = Pair::new(random::empty(rng, capacity, start));
    pair.look(rng);
    let kinds = random::kinds(rng);
    for _ in 0..pushes {
        let kind = random::any(rng, &kinds);
        pair.push(random::record(rng, kind));
        pair.look(rng);
    }
}

/// As many seeds, for each number others.
fn seeds(number: usize, count: u64) -> Range<u64> {
    let first = number as u64 * 1_000;
    first..first + count
}

/// "0 at first".
#[test]
fn small_rings_from_the_first_start() {
    for capacity in 16..=300 {
        random::seeded(seeds(capacity, 4), |rng| history(rng, capacity, 0, 600));
    }
}

/// Powers of two and their neighbours, primes, sums of one kind of record, and the greatest.
const LARGE: [usize; 30] = [
    307, 420, 499, 509, 511, 512, 513, 630, 997, 1009, 1023, 1024, 1025, 1260, 1999, 2039, 2047,
    2048, 2049, 2053, 2520, 3001, 3989, 4001, 4091, 4092, 4093, 4094, 4095, 4096,
];

#[test]
fn large_rings_from_the_first_start() {
    for capacity in LARGE {
        random::seeded(seeds(capacity, 2), |rng| history(rng, capacity, 0, 2_000));
    }
}

/// Every start of a small ring.
#[test]
fn small_rings_from_every_start() {
    for capacity in 16..=64 {
        for start in 0..capacity {
            let seeds = seeds(100 * capacity + start, 2);
            random::seeded(seeds, |rng| history(rng, capacity, start, 40));
        }
    }
}

/// The starts of a large ring from which the first records pass the end, or nearly.
#[test]
fn large_rings_from_starts_near_their_end() {
    for capacity in LARGE {
        for before in 1..=20 {
            let seeds = seeds(100 * capacity + before, 1);
            random::seeded(seeds, |rng| history(rng, capacity, capacity - before, 20));
        }
    }
}

/// Full rings of every capacity whose next record passes the end.
#[test]
fn every_capacity_when_full() {
    for capacity in 16..=4096 {
        random::seeded(seeds(capacity, 1), |rng| {
            let bytes = if random::total(capacity) { capacity } else { capacity - 1 };
            let start = capacity - rng.gen_range(1..=8);
            let mut pair = Pair::new(random::empty(rng, capacity, start));
            for kind in random::filling(rng, bytes) {
                pair.trace.push(random::record(rng, kind));
            }
            pair.placed.take_over(&pair.trace);
            assert_eq!(pair.placed.ring.used, bytes);
            pair.look(rng);
            for _ in 0..6 {
                let kind = random::any(rng, &random::KINDS);
                pair.push(random::record(rng, kind));
                pair.look(rng);
            }
        });
    }
}
