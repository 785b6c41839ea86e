//! Which answer is given where several could be: 12 before 13 before 14 before 16.

use crate::placed::Placed;
use crate::{agree, random};
use rand::rngs::SmallRng;
use rand::Rng;

/// The largest number that a ring has room for.
const MOST: usize = u32::MAX as usize;

/// Makes the ring's numbers wrong.
fn spoil_numbers(rng: &mut SmallRng, placed: &mut Placed) {
    let (capacity, ring) = (placed.ring.capacity, &mut placed.ring);
    match rng.gen_range(0..5) {
        0 => ring.capacity = random::any(rng, &[0, 1, 15, 4097, MOST]),
        1 => ring.start = capacity,
        2 => ring.used = capacity + 1,
        3 => ring.start = MOST,
        _ => ring.used = MOST,
    }
}

/// Puts the part outside, or gives it another size.
fn spoil_part(rng: &mut SmallRng, placed: &mut Placed) {
    let (length, at) = (placed.buffer.slice().len(), &mut placed.at);
    match rng.gen_range(0..5) {
        0 => at.offset = length - at.size + 1,
        1 => at.offset = usize::MAX,
        2 => at.offset = 0usize.wrapping_sub(at.size),
        3 => at.size -= 1,
        _ => at.size += 1,
    }
}

/// Makes the kind of the oldest record unknown.
fn spoil_bytes(rng: &mut SmallRng, placed: &mut Placed) {
    *placed.byte_mut(0) = random::any(rng, &[0, 4, 0x81, 255]);
}

/// Each choice of what is wrong; a push asks neither 14 nor 16.
#[test]
fn every_choice_of_faults() {
    random::seeded(0..3_000, |rng| {
        let capacity = random::capacity(rng);
        let good = random::proper(rng, capacity);
        if good.ring.used == 0 {
            return;
        }
        for (number, part, bytes, room) in all_choices() {
            let mut placed = good.clone();
            if bytes {
                spoil_bytes(rng, &mut placed);
            }
            if part {
                spoil_part(rng, &mut placed);
            }
            if number {
                spoil_numbers(rng, &mut placed);
            }
            let used = good.ring.used;
            let length = if room { rng.gen_range(0..used) } else { used };
            let ready = [(number, 12), (part, 13), (bytes, 14)];
            let push = [(number, 12), (part, 13)];
            let read_out = [(number, 12), (part, 13), (bytes, 14), (room, 16)];
            assert_eq!(agree::ready(&placed).err(), first(&ready), "{placed:?}");
            let readout = agree::read_out(rng, &placed, length);
            assert_eq!(readout.err(), first(&read_out), "{length}, {placed:?}");
            let new = random::record(rng, 1);
            let pushed = agree::push(&mut placed.clone(), new);
            assert_eq!(pushed.err(), first(&push), "{placed:?}");
        }
    });
}

fn all_choices() -> impl Iterator<Item = (bool, bool, bool, bool)> {
    (0..16).map(|bits| (bits & 8 != 0, bits & 4 != 0, bits & 2 != 0, bits & 1 != 0))
}

/// The first answer that has its reason.
fn first(reasons: &[(bool, u8)]) -> Option<u8> {
    reasons.iter().find(|(given, _)| *given).map(|(_, answer)| *answer)
}
