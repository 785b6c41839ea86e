//! What the packets of the RehaStim2 (source 000) and of the RehaMove3 (source 002) have in common.
//!
//! `grammar` has what stands between the bytes of a stream as a grammar, `turned` a CRC by another
//! one's code, and `answer` the numbers that both readers answer by.

pub mod answer;
mod grammar;
mod turned;

pub use grammar::{always_stuffed, packet, unstuffed, whole};
pub use turned::turned_remainder;

/// Table 6 of source 000, table 3 of source 002.
pub const START: u8 = 0xF0;
pub const STOP: u8 = 0x0F;
pub const STUFFING: u8 = 0x81;
pub const KEY: u8 = 0x55;

/// "Every constant [..], except the stuffing key, is escaped with the stuffing byte."
fn is_stuffed(byte: u8) -> bool {
    [START, STOP, STUFFING].contains(&byte)
}

/// The bytes as they are stuffed.
pub fn stuffed(plain: &[u8]) -> Vec<u8> {
    let mut stuffed = Vec::new();
    for &byte in plain {
        if is_stuffed(byte) {
            stuffed.extend([STUFFING, byte ^ KEY]);
        } else {
            stuffed.push(byte);
        }
    }
    stuffed
}
