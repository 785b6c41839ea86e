//! Records to push, and kinds of record to lay.

use independent::Record;
use rand::rngs::SmallRng;
use rand::seq::SliceRandom;
use rand::{Rng, SeedableRng};

pub const ANSWER: u8 = 1;
pub const PULSE: u8 = 2;
pub const TRIP: u8 = 3;

/// A record of this kind with any body.
pub fn any(rng: &mut SmallRng, kind: u8) -> Record {
    let clock = rng.gen();
    match kind {
        ANSWER => Record::Answer { clock, ident: rng.gen(), answer: rng.gen() },
        PULSE => {
            let (channel, width, current) = rng.gen();
            Record::Pulse { clock, channel, width, current }
        }
        TRIP => Record::Trip { clock, cause: rng.gen() },
        _ => panic!("no kind of record: {kind}"),
    }
}

/// How many bytes a record of this kind has.
pub fn bytes_of(kind: u8) -> usize {
    match kind {
        ANSWER => 7,
        PULSE => 9,
        TRIP => 6,
        _ => panic!("no kind of record: {kind}"),
    }
}

/// As many of each kind, as nearly as can be, in an order that `seed` gives.
pub fn mixed(count: usize, seed: u64) -> Vec<u8> {
    let mut kinds: Vec<u8> = [ANSWER, PULSE, TRIP].into_iter().cycle().take(count).collect();
    kinds.shuffle(&mut SmallRng::seed_from_u64(seed));
    kinds
}
