//! Where a packet starts and stops, found eight bytes at a time.

use super::{START, STOP, STUFFING};

const WORD: usize = 8;

/// What stands between the start and the stop of the first packet that has a stop, and how many bytes
/// there are to that stop.
#[inline(always)]
pub fn packet(bytes: &[u8]) -> Option<(&[u8], usize)> {
    // The place behind the start of the packet that is open.
    let mut open = None;
    let mut mark = |place: usize| {
        if place > 0 && bytes[place - 1] == STUFFING {
            return None;
        }
        if bytes[place] == START {
            open = Some(place + 1);
            return None;
        }
        open.map(|open| (&bytes[open..place], place + 1))
    };
    let (words, rest) = bytes.as_chunks::<WORD>();
    for (number, word) in words.iter().enumerate() {
        let mut marks = marks(u64::from_le_bytes(*word));
        while marks != 0 {
            let place = number * WORD + marks.trailing_zeros() as usize / 8;
            if let Some(packet) = mark(place) {
                return Some(packet);
            }
            marks &= marks - 1;
        }
    }
    for (place, byte) in (words.len() * WORD..).zip(rest) {
        if matches!(*byte, START | STOP) {
            if let Some(packet) = mark(place) {
                return Some(packet);
            }
        }
    }
    None
}

/// The highest bit of each byte that is F0 or 0F.
#[inline(always)]
fn marks(word: u64) -> u64 {
    zeros(word ^ all(START)) | zeros(word ^ all(STOP))
}

/// The highest bit of each byte that is 0.
#[inline(always)]
fn zeros(word: u64) -> u64 {
    let low = all(0x7F);
    !(((word & low) + low) | word | low)
}

const fn all(byte: u8) -> u64 {
    u64::from_le_bytes([byte; WORD])
}
