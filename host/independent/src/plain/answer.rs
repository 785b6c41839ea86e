//! Document 01, "Numbers the box answers".

pub const DONE: u8 = 0;
pub const UNFINISHED: u8 = 1;
pub const LOW_BYTE: u8 = 2;
pub const WRONG_CHECK: u8 = 3;
pub const NOT_GOOD: u8 = 4;
pub const TIMING: u8 = 5;
pub const NO_LIST: u8 = 6;
pub const LIST_RUNS: u8 = 7;
pub const HOLD: u8 = 8;
pub const OVER_LIMIT: u8 = 9;
pub const TRIPPED: u8 = 10;
pub const PROFILE: u8 = 11;
pub const BOX_RECORD: u8 = 12;
pub const PART: u8 = 13;
pub const SPLIT: u8 = 14;
pub const CLOCK_END: u8 = 15;
pub const OUTPUT_TOO_SHORT: u8 = 16;
pub const CUT: u8 = 17;
