//! Why a line of a sheet is bad. The proved library decides that it is; this finds what is at fault.

use super::{Column, Field, Kind, HEADER};
use thiserror::Error;

/// Why a line is no header, or no line of a record.
#[derive(Clone, Debug, Error, PartialEq, Eq)]
pub enum BadLine {
    /// There is no line at all.
    #[error("the sheet is empty, and its first line is {}", HEADER.trim_end())]
    Empty,
    /// The last line lacks its line feed.
    #[error("the line is not ended by a line feed")]
    Unended,
    /// The line ends as those of another system do.
    #[error(
        "a carriage return stands before the line feed, and a line ends with a line feed alone"
    )]
    CarriageReturn,
    /// The sheet begins with the mark that some programs put before a text.
    #[error("a byte order mark stands before the header")]
    Marked,
    /// The first line is another.
    #[error("the header is not {}", HEADER.trim_end())]
    Header,
    /// Some programs put texts in quotes.
    #[error("a quotation mark stands in the line, and a sheet has none")]
    Quoted,
    /// There are too few fields, or too many.
    #[error(
        "the line has {fields} field{}, and a record has six, with commas between them",
        if *fields == 1 { "" } else { "s" }
    )]
    Fields {
        /// How many there are.
        fields: usize,
    },
    /// No record is of this kind.
    #[error("kind is {text}, and a record is of kind answer, pulse or trip")]
    Kind {
        /// What stands there.
        text: String,
    },
    /// A number is not there.
    #[error("{column} is empty, and {kind} has a number there")]
    Lacking {
        /// Where it should stand.
        column: Column,
        /// The record's kind.
        kind: Kind,
    },
    /// Something is there where the record has nothing.
    #[error("{column} is {text}, and {kind} has nothing there")]
    Surplus {
        /// Where it stands.
        column: Column,
        /// The record's kind.
        kind: Kind,
        /// What stands there.
        text: String,
    },
    /// There is something else than digits.
    #[error("{column} is {text}, and a number is digits alone")]
    NotDigits {
        /// Where it stands.
        column: Column,
        /// What stands there.
        text: String,
    },
    /// There is a zero too many.
    #[error("{column} is {text}, and a number has no leading zero")]
    LeadingZero {
        /// Where it stands.
        column: Column,
        /// What stands there.
        text: String,
    },
    /// A number is not good there.
    #[error("{column} is {text}, and {kind} has {field}")]
    OutOfRange {
        /// Where it stands.
        column: Column,
        /// The record's kind.
        kind: Kind,
        /// The number.
        text: String,
        /// Which numbers are good.
        field: Field,
    },
}

/// Every kind of record has a clock.
const CLOCK: Field = Field { column: Column::Clock, good: &[0..=u32::MAX] };

impl BadLine {
    /// What is at fault in the line of this number of a sheet, which the library says is bad.
    pub(super) fn known(sheet: &[u8], number: usize) -> BadLine {
        let line = sheet.split_inclusive(|byte| *byte == b'\n').nth(number - 1);
        let fault = match line {
            None => Some(BadLine::Empty),
            Some(line) if number == 1 => BadLine::of_header(line),
            Some(line) => BadLine::of_record(line),
        };
        fault.expect("the library says that the line is bad")
    }

    /// What is at fault in the first line of a sheet, if anything is.
    fn of_header(line: &[u8]) -> Option<BadLine> {
        if line == HEADER.as_bytes() {
            return None;
        }
        let marked = line.starts_with("\u{FEFF}".as_bytes());
        let words = BadLine::of_end(line).unwrap_or(BadLine::Header);
        Some(if marked { BadLine::Marked } else { words })
    }

    /// What is at fault in any other line, if anything is.
    fn of_record(line: &[u8]) -> Option<BadLine> {
        BadLine::of_end(line).or_else(|| BadLine::of_fields(&line[..line.len() - 1]))
    }

    fn of_end(line: &[u8]) -> Option<BadLine> {
        match line {
            [.., b'\r', b'\n'] => Some(BadLine::CarriageReturn),
            [.., b'\n'] => None,
            _ => Some(BadLine::Unended),
        }
    }

    fn of_fields(line: &[u8]) -> Option<BadLine> {
        if line.contains(&b'"') {
            return Some(BadLine::Quoted);
        }
        let texts: Vec<&[u8]> = line.split(|byte| *byte == b',').collect();
        let Ok(texts) = <[&[u8]; 6]>::try_from(texts) else {
            let fields = line.iter().filter(|byte| **byte == b',').count() + 1;
            return Some(BadLine::Fields { fields });
        };
        let named = |kind: &Kind| kind.name().as_bytes() == texts[1];
        let Some(kind) = Kind::ALL.into_iter().find(named) else {
            return Some(BadLine::Kind { text: shown(texts[1]) });
        };
        let mut columns = Column::ALL.into_iter().zip(texts);
        columns.find_map(|(column, text)| match column {
            Column::Clock => BadLine::of_number(&CLOCK, kind, text),
            Column::Kind => None,
            _ => match kind.fields().iter().find(|field| field.column == column) {
                Some(field) => BadLine::of_number(field, kind, text),
                None if text.is_empty() => None,
                None => Some(BadLine::Surplus { column, kind, text: shown(text) }),
            },
        })
    }

    fn of_number(field: &Field, kind: Kind, text: &[u8]) -> Option<BadLine> {
        let column = field.column;
        match text {
            [] => return Some(BadLine::Lacking { column, kind }),
            _ if !text.iter().all(u8::is_ascii_digit) => {
                return Some(BadLine::NotDigits { column, text: shown(text) })
            }
            [b'0', _, ..] => return Some(BadLine::LeadingZero { column, text: shown(text) }),
            _ => {}
        }
        let number = std::str::from_utf8(text).ok()?.parse().ok();
        let good = number.is_some_and(|number| field.holds(number));
        let text = || shown(text);
        (!good).then(|| BadLine::OutOfRange { column, kind, text: text(), field: field.clone() })
    }
}

/// What stands in a field, and of much the start alone.
fn shown(text: &[u8]) -> String {
    const MOST: usize = 40;
    let number = !text.is_empty() && text.iter().all(u8::is_ascii_digit);
    let quote = if number { "" } else { "\"" };
    let (start, rest) = text.split_at(text.len().min(MOST));
    let more = if rest.is_empty() { "" } else { ".." };
    format!("{quote}{}{more}{quote}", start.escape_ascii())
}

#[cfg(test)]
mod tests;
