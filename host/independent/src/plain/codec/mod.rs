//! The codec of frames by shifts and masks.
//!
//! A Check is a sum modulo 8 or 32, both of which divide 256: the sums are of bytes and may wrap.

mod frame;
pub(crate) mod init;
mod read;
mod reply;
pub(crate) mod setting;
pub(crate) mod single;
mod stop;
mod update;

pub use init::write_init;
pub use read::{
    read, read_init, read_single, read_stop, read_update, Read, ReadInit, ReadSingle, ReadStop,
    ReadUpdate,
};
pub use reply::reply;
pub use single::write_single;
pub use stop::write_stop;
pub use update::write_update;

/// What a writer tells: "The writer answers 4, then 16", and how many bytes it wrote.
#[derive(Clone, Copy, Debug, Default, PartialEq, Eq)]
pub struct Wrote {
    pub answer: u8,
    pub used: usize,
}

impl Wrote {
    pub(super) fn refused(answer: u8) -> Wrote {
        Wrote { answer, used: 0 }
    }

    pub(super) fn all(used: usize) -> Wrote {
        Wrote { answer: super::answer::DONE, used }
    }
}

/// The commands by their Ident (source 003, table 3).
pub(crate) const INIT: u8 = 0;
pub(crate) const UPDATE: u8 = 1;
pub(crate) const STOP: u8 = 2;
pub(crate) const SINGLE: u8 = 3;

/// "The first byte has bit 7 set, every other byte has it clear."
pub(crate) const HIGH: u8 = 0x80;

/// "Bits 6 and 5 of the first byte are the Ident."
pub(crate) fn ident(first: u8) -> u8 {
    first >> 5 & 3
}

/// A first byte whose Check has 5 bits.
fn first(ident: u8, check: u8) -> u8 {
    HIGH | ident << 5 | check & CHECK
}

/// Where a Check of 5 bits stands in the first byte.
pub(crate) const CHECK: u8 = 31;
