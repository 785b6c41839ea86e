//! Bytes that a command is given: in hex as words of the command line, or from a file or standard
//! input, in hex as text or as they are.

use crate::failure::BadInput;
use crate::hex::{Hex, NotBytes};
use crate::input::{self, Content, Source};
use std::ffi::{OsStr, OsString};
use std::fmt::Display;
use std::path::Path;

/// The argument's name.
const NAME: &str = "<HEX>...";

/// Bytes, and where they were given.
pub struct Bytes {
    pub all: Vec<u8>,
    origin: Origin,
}

enum Origin {
    Words,
    /// The line of each byte.
    Text(Source, Vec<usize>),
    /// The line from which on they are no text.
    Themselves(Source, usize),
}

impl Bytes {
    /// Words in hex; one alone may be standard input.
    pub fn of_words(words: &[OsString]) -> Result<Bytes, BadInput> {
        if let Some(source) = standard_input(words)? {
            return Bytes::of_source(source);
        }
        in_hex(words).map_err(|(word, why)| {
            BadInput::argument(NAME, format!("{word:?} is not bytes in hex ({why})"))
        })
    }

    /// Words in hex; one alone may be standard input, or a file if it is not hex.
    pub fn of_words_or_file(words: &[OsString]) -> Result<Bytes, BadInput> {
        if let Some(source) = standard_input(words)? {
            return Bytes::of_source(source);
        }
        in_hex(words).or_else(|(word, why)| {
            let no_file = match words {
                [only] if Path::new(only).exists() => {
                    return Bytes::of_source(Source::from(only.clone()))
                }
                [_] => "no such file is there",
                _ => "a file stands alone",
            };
            let what = format!("{word:?} is neither bytes in hex ({why}) nor a file ({no_file})");
            Err(BadInput::argument(NAME, what))
        })
    }

    fn of_source(source: Source) -> Result<Bytes, BadInput> {
        let text = match source.content()? {
            Content::Text(text) => text,
            Content::Bytes(all, line) => {
                return Ok(Bytes { all, origin: Origin::Themselves(source, line) })
            }
        };
        let (mut hex, mut lines) = (Hex::default(), Vec::new());
        for (line, words) in input::lines(&text) {
            for word in words {
                hex.take(word).map_err(|why| BadInput::line(source.name(), line, why))?;
            }
            lines.resize(hex.bytes.len(), line);
        }
        Ok(Bytes { all: hex.bytes, origin: Origin::Text(source, lines) })
    }

    /// The file that has them, or standard input, if they were not words.
    pub fn file(&self) -> Option<&Path> {
        match &self.origin {
            Origin::Words => None,
            Origin::Text(source, _) | Origin::Themselves(source, _) => Some(source.path()),
        }
    }

    /// What is wrong with them, from this byte on if one is named, which counts from 0.
    pub fn fault(&self, at: Option<usize>, what: impl Display) -> BadInput {
        match (&self.origin, at) {
            (Origin::Words, _) => BadInput::argument(NAME, what),
            (Origin::Text(source, lines), Some(at)) => {
                BadInput::line(source.name(), lines[at], what)
            }
            (Origin::Text(source, _), None) => BadInput::file(source.name(), what),
            (Origin::Themselves(source, line), _) => {
                let taken = "and so it is taken as the bytes themselves";
                BadInput::file(source.name(), format!("{what}; line {line} is no text, {taken}"))
            }
        }
    }
}

/// Standard input, if the words are that.
fn standard_input(words: &[OsString]) -> Result<Option<Source>, BadInput> {
    let source = words.iter().cloned().map(Source::from).find(Source::is_standard_input);
    if source.is_some() && words.len() > 1 {
        return Err(BadInput::argument(NAME, "standard input (-) stands alone"));
    }
    Ok(source)
}

/// The bytes of the words, or the first word that is not hex.
fn in_hex(words: &[OsString]) -> Result<Bytes, (&OsStr, NotBytes)> {
    let mut hex = Hex::default();
    for word in words {
        let text = word.to_string_lossy();
        let taken = if text.trim().is_empty() { Err(NotBytes::Empty) } else { hex.take(&text) };
        taken.map_err(|why| (word.as_os_str(), why))?;
    }
    Ok(Bytes { all: hex.bytes, origin: Origin::Words })
}
