//! Why no packet was read.

use crate::Answer;
use thiserror::Error;

/// Why no packet was read.
///
/// ```
/// use yarrowbell::rehastim2::read;
///
/// let why = read(&[0xF0, 0x81, 0x49], &mut []).expect_err("it has no stop");
/// assert_eq!(why.to_string(), "answer 1: packet not finished");
/// ```
#[derive(Clone, Copy, Debug, Error, PartialEq, Eq)]
pub enum NotRead {
    /// No packet that starts in the bytes is stopped in them.
    #[error("answer 1: packet not finished")]
    Unfinished,
    /// The checksum is not that of the bytes that it covers, or is not there.
    #[error("answer 3: wrong or missing checksum")]
    WrongChecksum {
        /// How many bytes there are to the stop of that packet.
        used: usize,
    },
    /// The checksum is right, and something else is not: the length, a stuffed pair, how much data
    /// there is, or a value.
    #[error("answer 4: wrong length, a stuffed pair that is never written, or value not good")]
    NotGood {
        /// How many bytes there are to the stop of that packet.
        used: usize,
    },
    /// The output has fewer bytes than the command's data.
    #[error("answer 16: output too short for the packet's data")]
    OutputTooShort,
}

impl NotRead {
    /// The answer of this name.
    pub fn answer(self) -> Answer {
        match self {
            NotRead::Unfinished => Answer::Unfinished,
            NotRead::WrongChecksum { .. } => Answer::WrongCheck,
            NotRead::NotGood { .. } => Answer::NotGood,
            NotRead::OutputTooShort => Answer::OutputTooShort,
        }
    }

    /// How many bytes were used: 0 unless a packet was found to be wrong.
    pub fn used(self) -> usize {
        match self {
            NotRead::WrongChecksum { used } | NotRead::NotGood { used } => used,
            NotRead::Unfinished | NotRead::OutputTooShort => 0,
        }
    }

    /// What the library gave as its answer, or nothing if that is 0.
    pub(crate) fn known(number: u8, used: usize) -> Option<NotRead> {
        match Answer::known(number) {
            Answer::Done => None,
            Answer::Unfinished => Some(NotRead::Unfinished),
            Answer::WrongCheck => Some(NotRead::WrongChecksum { used }),
            Answer::NotGood => Some(NotRead::NotGood { used }),
            Answer::OutputTooShort => Some(NotRead::OutputTooShort),
            other => panic!("NotRead: {other:?}"),
        }
    }
}
