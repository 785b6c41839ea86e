//! The columns of a sheet, and which numbers are good in them.

use std::fmt;
use std::ops::RangeInclusive;

/// A column of a sheet.
#[derive(Clone, Copy, Debug, PartialEq, Eq)]
pub enum Column {
    /// In tenths of a millisecond.
    Clock,
    /// `answer`, `pulse` or `trip`.
    Kind,
    /// A pulse's channel, or an answer's Ident.
    Channel,
    /// In microseconds.
    WidthUs,
    /// In milliamps.
    CurrentMa,
    /// An answer's number, or a trip's cause.
    Code,
}

impl Column {
    /// Every column, from left to right.
    pub const ALL: [Column; 6] = [
        Column::Clock,
        Column::Kind,
        Column::Channel,
        Column::WidthUs,
        Column::CurrentMa,
        Column::Code,
    ];

    /// As the header has it.
    pub fn name(self) -> &'static str {
        match self {
            Column::Clock => "clock",
            Column::Kind => "kind",
            Column::Channel => "channel",
            Column::WidthUs => "width_us",
            Column::CurrentMa => "current_ma",
            Column::Code => "code",
        }
    }
}

impl fmt::Display for Column {
    fn fmt(&self, out: &mut fmt::Formatter) -> fmt::Result {
        out.pad(self.name())
    }
}

/// A number that a record has in a column, and its range by document 01.
#[derive(Clone, Debug, PartialEq, Eq)]
pub struct Field {
    /// Where it stands.
    pub column: Column,
    /// The ranges of good numbers, from low to high.
    pub good: &'static [RangeInclusive<u32>],
}

impl Field {
    /// Whether a number is good here.
    pub fn holds(&self, number: u32) -> bool {
        self.good.iter().any(|range| range.contains(&number))
    }
}

/// The good numbers, as `0 or 3 to 10`.
impl fmt::Display for Field {
    fn fmt(&self, out: &mut fmt::Formatter) -> fmt::Result {
        for (place, range) in self.good.iter().enumerate() {
            let or = if place == 0 { "" } else { " or " };
            match range.clone().into_inner() {
                (only, last) if only == last => write!(out, "{or}{only}")?,
                (first, last) => write!(out, "{or}{first} to {last}")?,
            }
        }
        Ok(())
    }
}
