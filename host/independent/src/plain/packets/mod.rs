//! What the packets of the RehaStim2 and of the RehaMove3 have in common.

mod framing;
mod stuffing;

pub(super) use framing::packet;
pub(super) use stuffing::{is_stuffed, stuff, unstuffed};

/// Table 6 of source 000, table 3 of source 002.
pub(super) const START: u8 = 0xF0;
pub(super) const STOP: u8 = 0x0F;
pub(super) const STUFFING: u8 = 0x81;
pub(super) const KEY: u8 = 0x55;
