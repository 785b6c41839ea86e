//! How often each answer was given.

use crate::seeded::seeded;
use rand::rngs::SmallRng;
use std::ops::Range;

pub fn counted(seeds: Range<u64>, mut case: impl FnMut(&mut SmallRng) -> u8) -> [u32; 17] {
    let mut answers = [0; 17];
    seeded(seeds, |rng| answers[usize::from(case(rng))] += 1);
    answers
}
