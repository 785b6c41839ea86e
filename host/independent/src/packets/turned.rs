//! A CRC that takes the highest bit first, by the code of those that take the lowest first.

use crc::crc16;

/// The remainder of these bytes with its bits in the other order, from 0 on, nothing added at the end;
/// the table is that of the polynomial with its bits in the other order.
///
/// Every byte is turned round for it. The crate complements at start and end, which is done once more
/// here.
pub fn turned_remainder(table: &[u16; 256], bytes: &[u8]) -> u16 {
    let turned: Vec<u8> = bytes.iter().map(|byte| byte.reverse_bits()).collect();
    !crc16::update(!0, table, &turned)
}
