//! The reply.

use crate::plain::answer::{DONE, TRIPPED, WRONG_CHECK};

/// "Ident in bits 7,6; bit 0 is 1 for answer 0, else 0; the rest clear." "No command decided: reply
/// 0."
#[inline]
pub fn reply(ident: u8, answer: u8) -> u8 {
    if matches!(answer, DONE | WRONG_CHECK..=TRIPPED) {
        ident << 6 | u8::from(answer == DONE)
    } else {
        0
    }
}
