//! Memory lent to a call, and what lies around it.

use rand::rngs::SmallRng;
use rand::{Rng, RngCore};
use std::fmt;

/// A slice to lend, in the midst of a larger memory that a call must not touch.
#[derive(Clone)]
pub struct Lent {
    memory: Vec<u8>,
    front: usize,
    length: usize,
}

impl Lent {
    /// Random bytes, in the slice and around it.
    pub fn random(rng: &mut SmallRng, length: usize) -> Lent {
        let (front, back) = (rng.gen_range(16..=31), rng.gen_range(16..=31));
        let mut memory = vec![0; front + length + back];
        rng.fill_bytes(&mut memory);
        Lent { memory, front, length }
    }

    pub fn slice(&self) -> &[u8] {
        &self.memory[self.front..][..self.length]
    }

    pub fn slice_mut(&mut self) -> &mut [u8] {
        &mut self.memory[self.front..][..self.length]
    }

    /// Compares all the memory, and says which byte of the slice is the first that differs; one
    /// before the slice has a number below 0.
    pub fn same(&self, expected: &Lent, said: impl Fn() -> String) {
        if self.memory != expected.memory {
            let mut both = self.memory.iter().zip(&expected.memory);
            let place = both.position(|(found, expected)| found != expected);
            let place = place.expect("both memories have the same length");
            panic!(
                "byte {} of the slice is {:02X} and should be {:02X}: {}",
                place as isize - self.front as isize,
                self.memory[place],
                expected.memory[place],
                said()
            );
        }
    }
}

impl fmt::Debug for Lent {
    fn fmt(&self, f: &mut fmt::Formatter) -> fmt::Result {
        write!(f, "{} bytes {:02X?}", self.length, self.slice())
    }
}
