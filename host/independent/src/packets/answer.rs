//! The numbers that requests 12 and 13 answer by.

pub const DONE: u8 = 0;
pub const UNFINISHED: u8 = 1;
pub const WRONG_CHECKSUM: u8 = 3;
pub const NOT_GOOD: u8 = 4;
pub const OUTPUT_TOO_SHORT: u8 = 16;
