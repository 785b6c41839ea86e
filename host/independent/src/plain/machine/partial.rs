//! The partial frame.

use super::list::update_length;
use super::{Run, RUNNING, TRIPPED};
use crate::plain::codec::{self, ident, HIGH};

/// The bytes of an open frame: how many there are, and how many it will have. All zero while none is
/// open, and so are the bytes past its length.
#[derive(Clone, Copy, Debug, Default, PartialEq, Eq)]
pub struct PartialFrame {
    pub bytes: [u8; 25],
    pub len: usize,
    pub kept: usize,
}

impl PartialFrame {
    /// A frame with its first byte.
    #[inline(always)]
    pub(super) fn opened(first: u8, kept: usize) -> PartialFrame {
        let mut bytes = [0; 25];
        bytes[0] = first;
        PartialFrame { bytes, len: 1, kept }
    }

    /// "The partial frame is empty, length 0, or a high byte followed by low ones, shorter than its
    /// kept length."
    #[inline(always)]
    pub(super) fn good(&self, state: u16, run: &Run) -> bool {
        let first = self.bytes[0];
        let clear = &CLEAR[self.len.min(24)];
        let stray =
            self.bytes[1..].iter().zip(clear).fold(0, |all, (byte, mask)| all | byte & mask);
        if stray != 0 {
            false
        } else if self.len == 0 {
            (first == 0) & (self.kept == 0)
        } else {
            (first >= HIGH) & (self.len < self.kept) & own(ident(first), self.kept, state, run)
        }
    }
}

/// The bits that are clear behind the first byte, for each length of the frame: bit 7 of its bytes,
/// and all past it.
const CLEAR: [[u8; 24]; 25] = {
    let mut clear = [[255; 24]; 25];
    let mut len = 2;
    while len < 25 {
        let mut place = 1;
        while place < len {
            clear[len][place - 1] = HIGH;
            place += 1;
        }
        len += 1;
    }
    clear
};

/// "That length is the frame's own; for Update it is the running list's, or 4 to 25 in steps of 3
/// when tripped, and no Update is open when idle." A Stop ends with its first byte.
#[inline(always)]
fn own(ident: u8, kept: usize, state: u16, run: &Run) -> bool {
    match (ident, state) {
        (codec::INIT, _) => kept == codec::init::LENGTH,
        (codec::SINGLE, _) => kept == codec::single::LENGTH,
        (codec::UPDATE, RUNNING) => kept == update_length(&run.list),
        (codec::UPDATE, TRIPPED) => (1..=8).any(|count| kept == 1 + 3 * count),
        _ => false,
    }
}
