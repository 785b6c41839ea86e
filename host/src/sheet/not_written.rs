//! Why no sheet was written.

use super::{Field, Kind};
use crate::records::split;
use crate::{Answer, NotRecords, Record};
use thiserror::Error;

/// Why no sheet was written.
#[derive(Clone, Debug, Error, PartialEq, Eq)]
pub enum NotWritten {
    /// The readout does not split into whole known records.
    #[error(transparent)]
    NotRecords(NotRecords),
    /// A number of a record is out of its range.
    #[error(
        "the record at byte {at} (counted from 0) is {kind} whose {} is {number}, where {field} is \
         good (answer 4: value not good)",
        field.column
    )]
    OutOfRange {
        /// The byte at which the first such record begins.
        at: usize,
        /// Its kind.
        kind: Kind,
        /// The number.
        number: u32,
        /// Which column it would stand in, and which numbers are good.
        field: Field,
    },
    /// The output has fewer bytes than the sheet.
    #[error("answer 16: output too short for the sheet")]
    OutputTooShort,
}

impl NotWritten {
    /// The answer by which it was refused.
    pub fn answer(&self) -> Answer {
        match self {
            NotWritten::NotRecords(_) => Answer::RingUnknown,
            NotWritten::OutOfRange { .. } => Answer::NotGood,
            NotWritten::OutputTooShort => Answer::OutputTooShort,
        }
    }

    /// The byte at which the record at fault begins, if one is.
    pub fn at(&self) -> Option<usize> {
        match self {
            NotWritten::NotRecords(why) => why.at(),
            NotWritten::OutOfRange { at, .. } => Some(*at),
            NotWritten::OutputTooShort => None,
        }
    }

    /// What the library gave as its answer to this readout.
    pub(super) fn known(answer: Answer, readout: &[u8]) -> NotWritten {
        match (answer, split(readout)) {
            (Answer::RingUnknown, Err(why)) => NotWritten::NotRecords(why),
            (Answer::NotGood, Ok(records)) => {
                let fault = records.iter().find_map(NotWritten::of_record);
                fault.expect("the library says that a number is out of its range")
            }
            (Answer::OutputTooShort, _) => NotWritten::OutputTooShort,
            other => panic!("NotWritten: {other:?}"),
        }
    }

    /// The first number of a record that is out of its range.
    fn of_record(record: &Record) -> Option<NotWritten> {
        let (kind, numbers) = Kind::of(record.body);
        let mut fields = kind.fields().iter().zip(numbers);
        let (field, number) = fields.find(|(field, number)| !field.holds(*number))?;
        Some(NotWritten::OutOfRange { at: record.at, kind, number, field: field.clone() })
    }
}
