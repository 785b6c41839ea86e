//! A second codec of ScienceMode2 packets, written from the paper alone: source 000, "ScienceMode2 -
//! RehaStim2 Stimulation Device, Description and Protocol", version 1.24. Where that leaves a choice
//! it follows document 02, request 12, and then the repository's decisions.
//!
//! `checksum` has the checksum by another CRC's code, `command` the tables of the commands, and `codec`
//! the tests in their order.

mod checksum;
mod codec;
mod command;

pub use checksum::checksum;
pub use codec::{compose, read, write, Reading};
pub use command::{ChannelList, Command};
