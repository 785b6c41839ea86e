//! "CRC-8-CCITT (x⁸ + x² + x + 1; 0x07)", byte by byte by a table of 256 entries.

/// The checksum of each byte.
static TABLE: [u8; 256] = table();

const fn table() -> [u8; 256] {
    let mut table = [0; 256];
    let mut byte = 0;
    while byte < 256 {
        table[byte] = of_byte(byte as u8);
        byte += 1;
    }
    table
}

/// The checksum of one byte, bit by bit.
const fn of_byte(byte: u8) -> u8 {
    let mut left = byte;
    let mut bit = 0;
    while bit < 8 {
        left = left << 1 ^ if left & 0x80 == 0 { 0 } else { 0x07 };
        bit += 1;
    }
    left
}

#[inline(always)]
pub(super) fn checksum(bytes: &[u8]) -> u8 {
    bytes.iter().fold(0, |sum, byte| TABLE[usize::from(sum ^ byte)])
}
