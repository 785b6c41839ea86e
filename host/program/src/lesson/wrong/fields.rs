//! A pulse's record, read by guessed fields: kind 1, current 2, width 2, channel 1.

use crate::course::Pulse;

pub fn pulse(record: &[u8]) -> Pulse {
    Pulse {
        current: u16::from_le_bytes([record[1], record[2]]),
        width: u16::from_le_bytes([record[3], record[4]]),
        channel: record[5],
    }
}
