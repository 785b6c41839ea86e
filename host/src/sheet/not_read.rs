//! Why no sheet was read.

use super::BadLine;
use crate::Answer;
use thiserror::Error;

/// Why no sheet was read.
#[derive(Clone, Debug, Error, PartialEq, Eq)]
pub enum NotRead {
    /// A line is no header, or no line of a record.
    #[error("line {line}: {why} (answer 4: value not good)")]
    BadLine {
        /// The number of the first such line; the header is line 1.
        line: usize,
        /// What is at fault there.
        why: BadLine,
    },
    /// The output has fewer bytes than the records.
    #[error("answer 16: output too short for the records")]
    OutputTooShort,
}

impl NotRead {
    /// The answer by which it was refused.
    pub fn answer(&self) -> Answer {
        match self {
            NotRead::BadLine { .. } => Answer::NotGood,
            NotRead::OutputTooShort => Answer::OutputTooShort,
        }
    }

    /// The number of the first bad line, if one is.
    pub fn line(&self) -> Option<usize> {
        match self {
            NotRead::BadLine { line, .. } => Some(*line),
            NotRead::OutputTooShort => None,
        }
    }

    /// What the library gave as its answer to this sheet, with the number of a bad line.
    pub(super) fn known(answer: Answer, sheet: &[u8], line: usize) -> NotRead {
        match answer {
            Answer::NotGood => NotRead::BadLine { line, why: BadLine::known(sheet, line) },
            Answer::OutputTooShort => NotRead::OutputTooShort,
            other => panic!("NotRead: {other:?}"),
        }
    }
}
