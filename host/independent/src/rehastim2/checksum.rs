//! The checksum: "a CRC-8-CCITT (x⁸ + x² + x + 1; 0x07)", section 2.2.

use crate::packets::turned_remainder;
use crc::crc16;
use std::sync::LazyLock;

/// The polynomial with its bits in the other order.
const TURNED: u16 = 0x00E0;

static TABLE: LazyLock<[u16; 256]> = LazyLock::new(|| crc16::make_table(TURNED));

/// The checksum of these bytes, highest bit first, from 0 on, nothing added at the end.
///
/// The crate has no CRC of 8 bits. But the polynomial has no bit above the lowest 8, so that none is
/// ever set there.
pub fn checksum(bytes: &[u8]) -> u8 {
    let [low, high] = turned_remainder(&TABLE, bytes).to_le_bytes();
    assert_eq!(high, 0);
    low.reverse_bits()
}
