//! A second codec of the RehaMove3's packets, written from the paper alone: source 002, "ScienceMode -
//! RehaMove3, Description and Protocol", version 3.2.4. Where that leaves a choice it follows document
//! 02, request 13, and then the repository's decisions.
//!
//! `checksum` has the checksum by another CRC's code, `bits` reads and makes fields of bits along the
//! layouts of the tables, `pulse` has the points, `command` the tables of the commands, and `codec` the
//! tests in their order.

mod bits;
mod checksum;
mod codec;
mod command;
mod pulse;

pub use checksum::checksum;
pub use codec::{compose, enclose, read, write, Reading};
pub use command::{ChannelConfig, Command};
pub use pulse::{Point, Pulse};
