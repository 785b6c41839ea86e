//! Why no packet was written.

use crate::Answer;
use thiserror::Error;

/// Why no packet was written.
#[derive(Clone, Copy, Debug, Error, PartialEq, Eq)]
pub enum NotWritten {
    /// A value is not good, or the command is [`Command::Other`](super::Command::Other).
    #[error("answer 4: value not good, or a command that is not written")]
    NotGood,
    /// The output has fewer bytes than the packet.
    #[error("answer 16: output too short for the packet")]
    OutputTooShort,
}

impl NotWritten {
    /// The answer of this name.
    pub fn answer(self) -> Answer {
        match self {
            NotWritten::NotGood => Answer::NotGood,
            NotWritten::OutputTooShort => Answer::OutputTooShort,
        }
    }

    /// What the library gave as its answer, or nothing if that is 0.
    pub(super) fn known(number: u8) -> Option<NotWritten> {
        match Answer::known(number) {
            Answer::Done => None,
            Answer::NotGood => Some(NotWritten::NotGood),
            Answer::OutputTooShort => Some(NotWritten::OutputTooShort),
            other => panic!("NotWritten: {other:?}"),
        }
    }
}
