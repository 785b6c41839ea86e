//! A written frame for scripts.

use crate::failure::{Failure, Out};
use crate::read::keyed::{self, Keyed};
use crate::read::Reading;
use crate::{hex, json, reason, words};
use serde::Serialize;

/// The keys. What there is not is null.
#[derive(Serialize)]
struct Line {
    bytes: String,
    command: &'static str,
    ident: u8,
    fields: Option<Keyed<u16>>,
    fields_words: Option<Keyed<String>>,
    /// What the frame is for, if that is not in it, or why every unit refuses it.
    note: Option<String>,
}

/// Prints a frame as it is read again.
pub fn print(frame: &[u8], out: Out) -> Result<(), Failure> {
    let reading = Reading::of(frame, None);
    let (command, ident) = (words::name(frame[0]), frame[0] >> 5 & 3);
    let line = Line {
        bytes: hex::spelt(frame),
        command,
        ident,
        fields: keyed::numbers(&reading),
        fields_words: keyed::words(&reading),
        note: match (command, reading.count) {
            ("Update", 1) => Some("for a list of 1 channel".to_owned()),
            ("Update", more) => Some(format!("for a list of {more} channels")),
            _ => reason::noted(frame),
        },
    };
    json::line(&line, out)
}
