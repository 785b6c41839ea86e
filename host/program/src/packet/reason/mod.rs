//! Why a packet was refused: the first test that it fails, in request 12's order, and where.

mod found;
mod told;

pub use found::of;

use super::field::Value;
use yarrowbell::Answer;

/// A test that failed, at a byte counted from 0 if there is a packet.
#[derive(Clone, Debug, PartialEq, Eq)]
pub struct Reason<F> {
    pub at: Option<usize>,
    pub what: What<F>,
}

/// What was there, and what would be right.
#[derive(Clone, Debug, PartialEq, Eq)]
pub enum What<F> {
    NoStart,
    NoStop,
    /// The stop stands in its place.
    NoChecksum,
    /// This stands in the place of its stuffing byte.
    BareChecksum(u8),
    Checksum {
        has: u16,
        right: u16,
    },
    NoLength,
    BareLength(u8),
    Length {
        has: u16,
        right: usize,
    },
    /// The second byte of a pair that nothing is stuffed to.
    Pair(u8),
    /// A byte that is to be stuffed and is not.
    Bare(u8),
    NoPacketNumber,
    NoCommand,
    /// So much data, of whatever command.
    TooMuch(usize),
    /// So much data of a command, which is named.
    Data {
        of: String,
        has: usize,
        right: usize,
    },
    Value(Value<F>),
}

impl<F> Reason<F> {
    /// The answer that it explains.
    pub fn answer(&self) -> Answer {
        match self.what {
            What::NoStart | What::NoStop => Answer::Unfinished,
            What::NoChecksum | What::BareChecksum(_) | What::Checksum { .. } => Answer::WrongCheck,
            What::NoLength
            | What::BareLength(_)
            | What::Length { .. }
            | What::Pair(_)
            | What::Bare(_)
            | What::NoPacketNumber
            | What::NoCommand
            | What::TooMuch(_)
            | What::Data { .. }
            | What::Value(_) => Answer::NotGood,
        }
    }
}

#[cfg(test)]
mod tests;
