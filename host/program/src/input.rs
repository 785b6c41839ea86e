//! Files that are read, and standard input.

use crate::failure::BadInput;
use std::ffi::OsString;
use std::fs;
use std::io::{self, Read};
use std::path::{Path, PathBuf};

/// What is read: a file, or standard input, which is spelt as -.
#[derive(Clone, Debug)]
pub struct Source(PathBuf);

/// What is in a file that may hold text or the bytes themselves.
pub enum Content {
    Text(String),
    /// With the line from which on they are no text.
    Bytes(Vec<u8>, usize),
}

impl From<OsString> for Source {
    fn from(word: OsString) -> Source {
        Source(word.into())
    }
}

impl Source {
    pub fn is_standard_input(&self) -> bool {
        self.0.as_os_str() == "-"
    }

    /// As it was named.
    pub fn path(&self) -> &Path {
        &self.0
    }

    /// What errors call it.
    pub fn name(&self) -> &Path {
        if self.is_standard_input() {
            Path::new("standard input")
        } else {
            &self.0
        }
    }

    pub fn text(&self) -> Result<String, BadInput> {
        match utf_8(self.bytes()?) {
            Ok(text) => Ok(unmarked(text)),
            Err((_, line)) => Err(BadInput::line(self.name(), line, "not UTF-8, and so no text")),
        }
    }

    /// Text is UTF-8 without control characters other than tab, line feed, form feed and carriage
    /// return. All else is taken as the bytes themselves: a readout begins with 01, 02 or 03, a frame
    /// is a high byte with low ones behind it, and a packet ends with 0F, which no text does or has.
    pub fn content(&self) -> Result<Content, BadInput> {
        let text = match utf_8(self.bytes()?) {
            Ok(text) => text,
            Err((bytes, line)) => return Ok(Content::Bytes(bytes, line)),
        };
        let control = |char: char| char.is_control() && !"\t\n\x0C\r".contains(char);
        Ok(match text.find(control) {
            None => Content::Text(unmarked(text)),
            Some(at) => {
                let line = line_behind(&text.as_bytes()[..at]);
                Content::Bytes(text.into_bytes(), line)
            }
        })
    }

    /// The bytes themselves, whatever they are.
    pub fn bytes(&self) -> Result<Vec<u8>, BadInput> {
        let read = if self.is_standard_input() {
            let mut bytes = Vec::new();
            io::stdin().lock().read_to_end(&mut bytes).map(|_| bytes)
        } else {
            fs::read(&self.0)
        };
        read.map_err(|error| BadInput::file(self.name(), error))
    }
}

/// Standard input can be read once: not more than one of these arguments may be it.
pub fn once(arguments: &[(&str, Option<&Source>)]) -> Result<(), BadInput> {
    let mut reading = arguments
        .iter()
        .filter_map(|(name, source)| source.is_some_and(Source::is_standard_input).then_some(name));
    match (reading.next(), reading.next()) {
        (Some(first), Some(second)) => {
            let what = format!("standard input can be read once, and {first} reads it");
            Err(BadInput::argument(second, what))
        }
        _ => Ok(()),
    }
}

/// The text, or the bytes again with the line in which they are none.
fn utf_8(bytes: Vec<u8>) -> Result<String, (Vec<u8>, usize)> {
    String::from_utf8(bytes).map_err(|error| {
        let line = line_behind(&error.as_bytes()[..error.utf8_error().valid_up_to()]);
        (error.into_bytes(), line)
    })
}

/// The text without the mark that some editors put before it.
fn unmarked(mut text: String) -> String {
    if text.starts_with('\u{FEFF}') {
        text.remove(0);
    }
    text
}

/// The number of the line that stands behind these bytes.
fn line_behind(bytes: &[u8]) -> usize {
    1 + bytes.iter().filter(|byte| **byte == b'\n').count()
}

/// The words of each line with its number, which counts from 1; what follows # is a comment.
pub fn lines(text: &str) -> impl Iterator<Item = (usize, Vec<&str>)> {
    (1..).zip(text.lines()).map(|(number, line)| {
        let (words, _) = line.split_once('#').unwrap_or((line, ""));
        (number, words.split_whitespace().collect())
    })
}
