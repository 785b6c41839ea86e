//! The packets of source 002, the checksum by a table.

mod checksum;
mod read;
mod values;
mod write;

pub use read::{read, Read};
pub use write::write;

/// The command numbers of section 4.1.
const LL_INIT: u16 = 0;
const LL_INIT_ACK: u16 = 1;
const LL_CHANNEL_CONFIG: u16 = 2;
const LL_CHANNEL_CONFIG_ACK: u16 = 3;
const LL_STOP: u16 = 4;
const LL_STOP_ACK: u16 = 5;

/// "The maximum packet length including stuffing is 1200 Bytes."
const LONGEST: usize = 1200;

/// Start, length and checksum, and the stop.
const AROUND: usize = 1 + 4 + 4 + 1;

/// The two numbers, and an Ll_channel_config of 16 points: no carried command is longer.
const MOST_CARRIED: usize = 2 + 1 + 16 * 4;
