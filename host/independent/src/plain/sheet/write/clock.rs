//! A clock at the front of its line.

use crate::plain::sheet::digits::{eight, four};
use crate::plain::sheet::words::{all, put};
use crate::plain::sheet::{LINE, SECOND};

/// What the clocks of one second begin with. Records come in their order, and many in a second.
#[derive(Clone, Copy)]
pub struct Clock {
    second: u32,
    text: u64,
    length: usize,
}

impl Clock {
    /// No clock has this second.
    pub const NONE: Clock = Clock { second: u32::MAX, text: 0, length: 0 };

    /// Writes the clock, and tells how many digits it has.
    #[inline(always)]
    pub fn put(&mut self, clock: u32, line: &mut [u8; LINE]) -> usize {
        let second = clock / SECOND;
        if second != self.second {
            if second == 0 {
                let (text, length) = spelt(clock);
                put(line, 0, text);
                return length;
            }
            let (text, length) = spelt(second);
            *self = Clock { second, text, length };
        }
        let length = self.length & 7;
        put(line, 0, self.text);
        let last = four(clock - second * SECOND) | all(b'0') as u32;
        line[length..length + 4].copy_from_slice(&last.to_le_bytes());
        length + 4
    }
}

/// A number below 100,000,000 without leading zeros, and how many digits that leaves.
#[inline(always)]
fn spelt(number: u32) -> (u64, usize) {
    let digits = eight(number);
    // The last digit stays, whatever it is.
    let zeros = (digits | 1 << 56).trailing_zeros() & !7;
    ((digits | all(b'0')) >> zeros, 8 - zeros as usize / 8)
}
