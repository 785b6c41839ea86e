//! The packets of source 000, the checksum by a table.

mod checksum;
mod read;
mod values;
mod write;

pub use read::{read, Read};
pub use write::write;

/// The values of section 3 that request 12 names.
const INIT: u8 = 1;
const INIT_ACK: u8 = 2;
const UNKNOWN_COMMAND: u8 = 3;
const WATCHDOG: u8 = 4;
const GET_STIMULATION_MODE: u8 = 10;
const GET_STIMULATION_MODE_ACK: u8 = 11;
const INIT_CHANNEL_LIST_MODE: u8 = 30;
const INIT_CHANNEL_LIST_MODE_ACK: u8 = 31;

/// Packet number and command, and "Command data < 61 Byte".
const MOST: usize = 2 + 60;
