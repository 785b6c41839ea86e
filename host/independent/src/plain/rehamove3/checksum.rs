//! "CRC-CCITT 2 Byte (16 Bit)", byte by byte by a table of 256 entries.

/// The checksum of each byte.
static TABLE: [u16; 256] = table();

const fn table() -> [u16; 256] {
    let mut table = [0; 256];
    let mut byte = 0;
    while byte < 256 {
        table[byte] = of_byte(byte as u8);
        byte += 1;
    }
    table
}

/// The checksum of one byte, bit by bit.
const fn of_byte(byte: u8) -> u16 {
    let mut left = (byte as u16) << 8;
    let mut bit = 0;
    while bit < 8 {
        left = left << 1 ^ if left & 0x8000 == 0 { 0 } else { 0x1021 };
        bit += 1;
    }
    left
}

#[inline(always)]
pub(super) fn checksum(bytes: &[u8]) -> u16 {
    bytes.iter().fold(0, |sum, byte| sum << 8 ^ TABLE[usize::from((sum >> 8) as u8 ^ byte)])
}
