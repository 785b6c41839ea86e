//! Numbers whose bytes are always stuffed.

use super::stuffing::{stuffed, KEY, STUFFING};
use crate::hex;

/// Such a number, as far as it is there.
pub struct Always<'a> {
    pub at: usize,
    pub bytes: &'a [u8],
    /// How many bytes it has before stuffing.
    pub size: usize,
}

impl Always<'_> {
    /// The number, high byte first, if all of it is there and stuffed.
    pub fn value(&self) -> Option<u16> {
        let bytes: Option<Vec<u8>> = self.pairs().map(|(_, pair)| plain(pair)).collect();
        let whole = bytes.filter(|bytes| bytes.len() == self.size)?;
        Some(whole.iter().fold(0, |number, byte| number << 8 | u16::from(*byte)))
    }

    /// What stands for each byte of it, with its place.
    pub fn pairs(&self) -> impl Iterator<Item = (usize, &[u8])> {
        (self.at..).step_by(2).zip(self.bytes.chunks(2))
    }

    /// The place of the first byte that is another one in a number that differs.
    pub fn differs_at(&self, number: u16) -> Option<usize> {
        let right = pairs(number, self.size);
        let differs = self.bytes.iter().zip(&right).position(|(one, other)| one != other);
        differs.map(|place| self.at + place)
    }
}

/// The byte that a pair stands for, if it is one.
pub fn plain(pair: &[u8]) -> Option<u8> {
    match pair {
        [STUFFING, byte] => Some(byte ^ KEY),
        _ => None,
    }
}

/// What a number of so many bytes is stuffed to.
pub fn pairs(number: u16, size: usize) -> Vec<u8> {
    number.to_be_bytes()[2 - size..].iter().flat_map(|byte| stuffed(*byte)).collect()
}

/// The bytes of a number before stuffing, in hex.
pub fn spelt(number: u16, size: usize) -> String {
    hex::spelt(&number.to_be_bytes()[2 - size..])
}
