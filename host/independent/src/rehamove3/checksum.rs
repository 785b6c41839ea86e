//! The checksum: "the CRC-CCITT 2 Byte (16 Bit)", section 2.2.

use crate::packets::turned_remainder;
use crc::crc16;
use std::sync::LazyLock;

/// x¹⁶ + x¹² + x⁵ + 1, with its bits in the other order.
const TURNED: u16 = 0x8408;

static TABLE: LazyLock<[u16; 256]> = LazyLock::new(|| crc16::make_table(TURNED));

/// The checksum of these bytes, highest bit first, from 0 on, nothing added at the end.
pub fn checksum(bytes: &[u8]) -> u16 {
    turned_remainder(&TABLE, bytes).reverse_bits()
}
