//! Random rings, good and bad.

use super::same::{same, same_all};
use crate::ring::{any, bytes_of, Bodies, Lent, Library, Plain, Plan, Side, ANSWER, TRIP};
use crate::seeded::seeded;
use crate::MOST;
use rand::rngs::SmallRng;
use rand::Rng;

/// The largest number that the library's ring has room for.
const LARGEST: usize = u32::MAX as usize;

pub fn check() {
    const CASES: u64 = 10_000;
    seeded(0..CASES, |rng| {
        let good = good(rng);
        compare(rng, &good);
        let bad = spoilt(rng, good);
        compare(rng, &bad);
    });
    println!("library and plain agree on {CASES} random rings, each whole and spoilt");
}

/// A ring of whole records, of any fullness.
fn good(rng: &mut SmallRng) -> Lent {
    let capacity = match rng.gen_range(0..4) {
        0 => rng.gen_range(16..=32),
        1 => MOST,
        _ => rng.gen_range(16..=MOST),
    };
    let offset = rng.gen_range(0..64);
    let length = offset + capacity + rng.gen_range(0..64);
    let start = rng.gen_range(0..capacity);
    let most = if rng.gen() { capacity } else { rng.gen_range(0..=capacity) };
    let mut used = 0;
    let kinds: Vec<u8> = std::iter::repeat_with(|| rng.gen_range(ANSWER..=TRIP))
        .take_while(|&kind| {
            used += bytes_of(kind);
            used <= most
        })
        .collect();
    let seed = rng.gen();
    Plan { capacity, start, offset, length, bodies: Bodies::Random, seed }.laid(&kinds)
}

/// The ring with one thing changed, mostly for the worse.
fn spoilt(rng: &mut SmallRng, mut lent: Lent) -> Lent {
    let Lent { buffer, at, ring } = &mut lent;
    match rng.gen_range(0..8) {
        0 => ring.capacity = odd_number(rng, ring.capacity, LARGEST),
        1 => ring.start = odd_number(rng, ring.capacity, LARGEST),
        2 => ring.used = odd_number(rng, ring.capacity, LARGEST),
        3 => at.size = odd_number(rng, at.size, usize::MAX),
        4 => at.offset = odd_number(rng, buffer.len() - at.size, usize::MAX),
        5 => {
            let size = odd_number(rng, 16, LARGEST);
            (ring.capacity, ring.start, ring.used, at.size) = (size, 0, 0, size);
        }
        6 => ring.used = rng.gen_range(0..=ring.capacity),
        _ => buffer[at.offset + rng.gen_range(0..at.size)] = rng.gen_range(0..=4),
    }
    lent
}

/// A number about this one, or one of the extremes.
fn odd_number(rng: &mut SmallRng, about: usize, largest: usize) -> usize {
    match rng.gen_range(0..6) {
        0 => 0,
        1 => MOST + 1,
        2 => largest - rng.gen_range(0..=about),
        _ => about.saturating_add(rng.gen_range(0..=4)).saturating_sub(2),
    }
}

/// The split test, a readout, and a few pushes one after the other.
fn compare(rng: &mut SmallRng, lent: &Lent) {
    let Lent { buffer, at, ring } = lent;
    let told = (at, buffer.len(), ring);
    let [library, plain] = [Library::ready, Plain::ready].map(|ready| ready(buffer, *at, ring));
    same("the split test", &told, &library, &plain);

    let room = odd_number(rng, ring.used, LARGEST).min(MOST + 2);
    let mut outs = [vec![0xA5; room], vec![0xA5; room]];
    let library = Library::read_out(buffer, *at, ring, &mut outs[0]);
    let plain = Plain::read_out(buffer, *at, ring, &mut outs[1]);
    same("a readout", &(told, room), &library, &plain);
    same_all("bytes of a readout", &(told, room), &outs[0], &outs[1]);

    let mut buffers = [buffer.clone(), buffer.clone()];
    let mut rings = [*ring; 2];
    for _ in 0..rng.gen_range(1..=8) {
        let kind = rng.gen_range(ANSWER..=TRIP);
        let record = any(rng, kind);
        let told = (told, rings[0], record);
        let library = Library::push(&mut buffers[0], *at, &mut rings[0], record);
        let plain = Plain::push(&mut buffers[1], *at, &mut rings[1], record);
        same("a push", &told, &(library, rings[0]), &(plain, rings[1]));
        same_all("bytes after a push", &told, &buffers[0], &buffers[1]);
    }
}
