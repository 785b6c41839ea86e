//! Byte stuffing, the same for each generation (source 000, table 6; source 002, table 3).

pub const START: u8 = 0xF0;
pub const STOP: u8 = 0x0F;
pub const STUFFING: u8 = 0x81;
pub const KEY: u8 = 0x55;

/// Whether a byte is stuffed where it stands inside a packet.
pub fn is_stuffed(byte: u8) -> bool {
    matches!(byte, START | STOP | STUFFING)
}

/// What a byte is stuffed to.
pub fn stuffed(byte: u8) -> [u8; 2] {
    [STUFFING, byte ^ KEY]
}
