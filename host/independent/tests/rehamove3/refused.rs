//! What the reader tells of a packet that it refuses.

use independent::rehamove3::Reading;

pub fn refused(answer: u8, used: usize) -> Reading {
    Reading { answer, used, ..Reading::default() }
}
