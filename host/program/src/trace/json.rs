//! Records for scripts.

use super::told;
use crate::failure::{Failure, Out};
use crate::{json, words};
use serde::Serialize;
use yarrowbell::{Body, Cause, Record};

/// The keys. What a record of its kind does not have is null.
#[derive(Serialize)]
struct Line<'a> {
    /// The byte at which the record begins, counted from 0.
    at: usize,
    /// In tenths of a millisecond and in milliseconds.
    clock: u32,
    ms: f64,
    /// `answer`, `pulse` or `trip`.
    kind: &'static str,
    /// The Ident, and the command's name if there is such a one.
    ident: Option<u8>,
    command: Option<&'static str>,
    /// The answer's number, and what it says if a command can get it.
    answer: Option<u8>,
    answer_words: Option<String>,
    channel: Option<u8>,
    width_us: Option<u16>,
    current_ma: Option<u8>,
    /// The number of a trip's cause, and what it says if there is such a one.
    cause: Option<u8>,
    cause_words: Option<String>,
    /// The rules that it breaks, so that no unit writes it.
    marks: &'a [String],
}

/// Prints a record in a line.
pub fn print(record: &Record, marks: &[String], out: Out) -> Result<(), Failure> {
    let line = Line {
        at: record.at,
        clock: record.clock,
        ms: json::milliseconds(record.clock),
        kind: "",
        ident: None,
        command: None,
        answer: None,
        answer_words: None,
        channel: None,
        width_us: None,
        current_ma: None,
        cause: None,
        cause_words: None,
        marks,
    };
    let line = match record.body {
        Body::Answer { ident, answer } => Line {
            kind: "answer",
            ident: Some(ident),
            command: told::command(ident),
            answer: Some(answer),
            answer_words: told::decided(answer).map(words::meaning),
            ..line
        },
        Body::Pulse { channel, width, current } => Line {
            kind: "pulse",
            channel: Some(channel),
            width_us: Some(width),
            current_ma: Some(current),
            ..line
        },
        Body::Trip { cause } => Line {
            kind: "trip",
            cause: Some(cause),
            cause_words: Cause::from_number(cause).map(|cause| cause.to_string()),
            ..line
        },
    };
    json::line(&line, out)
}
