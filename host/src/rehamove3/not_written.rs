//! Why no packet was written.

use crate::Answer;
use thiserror::Error;

/// Why no packet was written.
///
/// ```
/// use yarrowbell::rehamove3::{write, ChannelConfig, Command, Point, Pulse, LONGEST_WRITTEN};
///
/// let points = [Point { duration: 250, current: 40 }, Point { duration: 200, current: -40 }];
/// let pulse = Pulse::new(&points).expect("a pulse has 1 to 16 points");
/// let config = ChannelConfig { execution: true, channel: 0, pulse };
/// let why = write(1, &Command::LlChannelConfig(config), &mut [0; LONGEST_WRITTEN]);
/// assert_eq!(
///     why.expect_err("its second point is too short").to_string(),
///     "answer 4: net charge of 2000 half milliamp microseconds, which is to be 0"
/// );
/// ```
#[derive(Clone, Copy, Debug, Error, PartialEq, Eq)]
pub enum NotWritten {
    /// A value is not good, or the command is [`Command::Other`](super::Command::Other).
    #[error("answer 4: value not good, or a command that is not written")]
    NotGood,
    /// Every point of the pulse is good, and its net charge is not zero.
    #[error("answer 4: net charge of {charge} half milliamp microseconds, which is to be 0")]
    NotBalanced {
        /// The net charge.
        charge: i32,
    },
    /// The output has fewer bytes than the packet.
    #[error("answer 16: output too short for the packet")]
    OutputTooShort,
}

impl NotWritten {
    /// The answer of this name.
    pub fn answer(self) -> Answer {
        match self {
            NotWritten::NotGood | NotWritten::NotBalanced { .. } => Answer::NotGood,
            NotWritten::OutputTooShort => Answer::OutputTooShort,
        }
    }

    /// What the library gave as its answer, or nothing if that is 0.
    pub(super) fn known(number: u8) -> Option<NotWritten> {
        match Answer::known(number) {
            Answer::Done => None,
            Answer::NotGood => Some(NotWritten::NotGood),
            Answer::OutputTooShort => Some(NotWritten::OutputTooShort),
            other => panic!("NotWritten: {other:?}"),
        }
    }
}
