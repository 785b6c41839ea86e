//! The trace as a text sheet, eight bytes at a time.
//!
//! `words` has eight bytes as a number, `digits` what is reckoned on all digits of such a word at once,
//! and `texts` the fields of a pulse as they are written; a field is good exactly if it is spelt so.

mod digits;
mod read;
mod texts;
mod words;
mod write;

pub use read::read;
pub use write::write;

/// "The header line is exactly `clock,kind,channel,width_us,current_ma,code`".
const HEADER: &[u8; 44] = b"clock,kind,channel,width_us,current_ma,code\n";

/// Room for any line, of which a pulse's has up to 28 bytes, and for a word wherever one is read or
/// written in it.
const LINE: usize = 32;

/// Behind the clock and before the rest of the line, eight bytes whatever the kind is; that of a pulse
/// ends in its channel.
const ANSWER: u64 = words::of(*b",answer,");
const PULSE: u64 = words::of(*b",pulse,0");
const TRIP: u64 = words::of(*b",trip,,,");

/// "The clock counts tenths of a millisecond": all digits but the last four stay the same for a second.
const SECOND: u32 = 10_000;
