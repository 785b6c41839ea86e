//! Eight bytes as a number, the first of them lowest.

use super::LINE;

pub const fn of(bytes: [u8; 8]) -> u64 {
    u64::from_le_bytes(bytes)
}

pub const fn all(byte: u8) -> u64 {
    of([byte; 8])
}

/// The eight bytes at this place of a line.
#[inline(always)]
pub fn word(line: &[u8; LINE], at: usize) -> u64 {
    let mut bytes = [0; 8];
    bytes.copy_from_slice(&line[at..at + 8]);
    of(bytes)
}

/// Writes eight bytes to this place of a line.
#[inline(always)]
pub fn put(line: &mut [u8; LINE], at: usize, word: u64) {
    line[at..at + 8].copy_from_slice(&word.to_le_bytes());
}
