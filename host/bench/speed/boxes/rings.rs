//! What the ring of a measured box is filled with.

use crate::ring::{bytes_of, Lent, Plan, ANSWER, PULSE, TRIP};
use crate::MOST;
use rand::rngs::SmallRng;
use rand::{Rng, SeedableRng};

/// Full rings of the largest capacity, by their names: of pulses alone, with an answer for each 16th
/// record, and of any kinds.
pub fn full() -> [(&'static str, Vec<u8>); 3] {
    let mut places = 1..;
    let mut rng = SmallRng::seed_from_u64(1);
    let mostly = || match places.next() {
        Some(place) if place % 16 == 0 => ANSWER,
        _ => PULSE,
    };
    [
        ("pulses", filled(|| PULSE)),
        ("mostly pulses", filled(mostly)),
        ("mixed", filled(|| rng.gen_range(ANSWER..=TRIP))),
    ]
}

/// As many records of the kinds that come next as the ring holds.
fn filled(next: impl FnMut() -> u8) -> Vec<u8> {
    let mut used = 0;
    std::iter::repeat_with(next)
        .take_while(|&kind| {
            used += bytes_of(kind);
            used <= MOST
        })
        .collect()
}

/// The ring with records of these kinds, of the largest capacity.
pub fn laid(kinds: &[u8]) -> Lent {
    Plan::whole(MOST).laid(kinds)
}
