//! The kinds of records, and what each has in the columns of a sheet.

use super::field::{Column, Field};
use crate::Body;
use std::fmt;

/// A kind of record.
#[derive(Clone, Copy, Debug, PartialEq, Eq)]
pub enum Kind {
    /// A command was given an answer.
    Answer,
    /// A pulse was released.
    Pulse,
    /// The box tripped.
    Trip,
}

impl Kind {
    /// Every kind.
    pub const ALL: [Kind; 3] = [Kind::Answer, Kind::Pulse, Kind::Trip];

    /// As a sheet has it in its column `kind`.
    pub fn name(self) -> &'static str {
        match self {
            Kind::Answer => "answer",
            Kind::Pulse => "pulse",
            Kind::Trip => "trip",
        }
    }

    /// What a record of this kind has besides its clock, by the columns.
    pub fn fields(self) -> &'static [Field] {
        const IDENT: Field = Field { column: Column::Channel, good: &[0..=3] };
        const ANSWER: Field = Field { column: Column::Code, good: &[0..=0, 3..=10] };
        const CHANNEL: Field = Field { column: Column::Channel, good: &[1..=8] };
        const WIDTH: Field = Field { column: Column::WidthUs, good: &[10..=500] };
        const CURRENT: Field = Field { column: Column::CurrentMa, good: &[1..=127] };
        const CAUSE: Field = Field { column: Column::Code, good: &[1..=2] };
        match self {
            Kind::Answer => &[IDENT, ANSWER],
            Kind::Pulse => &[CHANNEL, WIDTH, CURRENT],
            Kind::Trip => &[CAUSE],
        }
    }

    /// The kind of a record, and its numbers in the order of the fields.
    pub(super) fn of(body: Body) -> (Kind, Vec<u32>) {
        match body {
            Body::Answer { ident, answer } => (Kind::Answer, vec![ident.into(), answer.into()]),
            Body::Pulse { channel, width, current } => {
                (Kind::Pulse, vec![channel.into(), width.into(), current.into()])
            }
            Body::Trip { cause } => (Kind::Trip, vec![cause.into()]),
        }
    }
}

/// With its article.
impl fmt::Display for Kind {
    fn fmt(&self, out: &mut fmt::Formatter) -> fmt::Result {
        let article = if *self == Kind::Answer { "an" } else { "a" };
        write!(out, "{article} {}", self.name())
    }
}
