//! A clock at the front of its line.

use crate::plain::sheet::digits::{of_eight, of_four, others};
use crate::plain::sheet::words::{all, of, word};
use crate::plain::sheet::{LINE, SECOND};

/// What the clocks of one second begin with, and the first of them. Lines come in their order, and many
/// in a second: that the next clock is as long is foretold, and its line is not waited for.
#[derive(Clone)]
pub struct Clock {
    text: u64,
    mask: u64,
    length: usize,
    start: u32,
}

impl Clock {
    /// No clock begins with this.
    pub const NONE: Clock = Clock { text: 0, mask: u64::MAX, length: 0, start: 0 };

    /// The clock, and how many digits it has; none if it is not spelt as it is written.
    #[inline(always)]
    pub fn read(&mut self, line: &[u8; LINE]) -> Option<(u32, usize)> {
        if let Some(found) = self.same_second(line) {
            return Some(found);
        }
        let text = word(line, 0);
        let digits = text ^ all(b'0');
        let others = others(digits);
        // One of the first five.
        if others << 24 != 0 {
            return below_a_second(line);
        }
        let length = match others {
            0 if line[8].is_ascii_digit() => 5 + usize::from(line[9].is_ascii_digit()),
            0 => 4,
            _ => others.trailing_zeros() as usize / 8 - 4,
        };
        let second = of_eight(digits << (64 - 8 * length));
        if digits as u8 == 0 || second > u32::MAX / SECOND {
            return None;
        }
        *self = Clock { text, mask: (1 << (8 * length)) - 1, length, start: second * SECOND };
        self.same_second(line)
    }

    /// The clock if it begins as the last one did, four digits follow and a comma.
    #[inline(always)]
    fn same_second(&self, line: &[u8; LINE]) -> Option<(u32, usize)> {
        if (word(line, 0) ^ self.text) & self.mask != 0 {
            return None;
        }
        let length = self.length & 7;
        let last = word(line, length) ^ of(*b"0000,\0\0\0");
        // As with all digits of a word, and no bit of the comma is left.
        if (last.wrapping_add(0x7676_7676) | last) & 0xFF_8080_8080 != 0 {
            return None;
        }
        Some((self.start.checked_add(of_four(last as u32))?, length + 4))
    }
}

/// A clock of up to four digits.
#[inline(always)]
fn below_a_second(line: &[u8; LINE]) -> Option<(u32, usize)> {
    let digit = |at: usize| line[at].is_ascii_digit().then(|| u32::from(line[at] - b'0'));
    let mut clock = digit(0)?;
    let mut length = 1;
    while length < 4 {
        let Some(digit) = digit(length) else { break };
        if clock == 0 {
            return None;
        }
        clock = 10 * clock + digit;
        length += 1;
    }
    Some((clock, length))
}
