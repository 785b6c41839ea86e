//! A lent buffer with a ring laid in it.

use super::bytes_of;
use independent::{Part, Ring};
use rand::rngs::SmallRng;
use rand::{Rng, SeedableRng};

#[derive(Clone)]
pub struct Lent {
    pub buffer: Vec<u8>,
    pub at: Part,
    pub ring: Ring,
}

/// What the bodies of the records hold.
#[derive(Clone, Copy)]
pub enum Bodies {
    Zeros,
    Ones,
    Random,
}

/// Where a ring is to lie.
#[derive(Clone, Copy)]
pub struct Plan {
    pub capacity: usize,
    pub start: usize,
    pub offset: usize,
    pub length: usize,
    pub bodies: Bodies,
    pub seed: u64,
}

impl Plan {
    /// A ring from its part's beginning, the part from the buffer's beginning to its end.
    pub fn whole(capacity: usize) -> Plan {
        Plan { capacity, start: 0, offset: 0, length: capacity, bodies: Bodies::Random, seed: 0 }
    }

    /// The ring with records of these kinds, oldest first. All the rest of the buffer is random.
    pub fn laid(self, kinds: &[u8]) -> Lent {
        let Plan { capacity, start, offset, length, bodies, seed } = self;
        let mut rng = SmallRng::seed_from_u64(seed);
        let mut buffer = vec![0; length];
        rng.fill(&mut buffer[..]);
        let mut used = 0;
        for &kind in kinds {
            let record = bytes_of(kind);
            for index in 0..record {
                let byte = &mut buffer[offset + (start + used + index) % capacity];
                match bodies {
                    _ if index == 0 => *byte = kind,
                    Bodies::Zeros => *byte = 0,
                    Bodies::Ones => *byte = 0xFF,
                    Bodies::Random => {}
                }
            }
            used += record;
        }
        assert!(used <= capacity, "{used} bytes of records in a ring of {capacity}");
        let at = Part { offset, size: capacity };
        Lent { buffer, at, ring: Ring { capacity, start, used } }
    }
}
