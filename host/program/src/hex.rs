//! Bytes as hex digits, two for each byte, as people have them: `E2214878`, `E2:21:48:78`,
//! `0xE2, 0x21, 0x48, 0x78`.

use std::fmt::Write;
use thiserror::Error;

#[derive(Debug, Error)]
pub enum NotBytes {
    #[error("no hex digits")]
    Empty,
    #[error("{0:?} is not a hex digit")]
    NotHex(char),
    #[error("{0:?} has an odd number of hex digits, and a byte has two")]
    Odd(String),
    #[error("{0:?} has no hex digits behind it")]
    Prefix(String),
    #[error("{0:?} has no byte before it")]
    NoByte(char),
}

/// The bytes of texts, one behind the other. Between bytes there is nothing, space, or a comma or
/// colon with or without space; a last comma or colon may stand behind them. Digits may have 0x
/// before them.
#[derive(Default)]
pub struct Hex {
    pub bytes: Vec<u8>,
    /// Whether a byte stands last, which a comma or colon may follow.
    byte_last: bool,
}

impl Hex {
    /// Takes the bytes of one text more. No byte goes on from one text to the next.
    pub fn take(&mut self, text: &str) -> Result<(), NotBytes> {
        for piece in text.split_inclusive(separates) {
            let run = piece.trim_end_matches(separates);
            if !run.is_empty() {
                self.run(run)?;
                self.byte_last = true;
            }
            if let Some(mark) = piece.chars().last().filter(|last| matches!(last, ',' | ':')) {
                if !self.byte_last {
                    return Err(NotBytes::NoByte(mark));
                }
                self.byte_last = false;
            }
        }
        Ok(())
    }

    /// Digits that nothing separates.
    fn run(&mut self, run: &str) -> Result<(), NotBytes> {
        let digits = run.strip_prefix("0x").or_else(|| run.strip_prefix("0X")).unwrap_or(run);
        if digits.is_empty() {
            return Err(NotBytes::Prefix(run.to_owned()));
        }
        let mut high = None;
        for char in digits.chars() {
            let digit = char.to_digit(16).ok_or(NotBytes::NotHex(char))? as u8;
            match high.take() {
                None => high = Some(digit),
                Some(high) => self.bytes.push(high << 4 | digit),
            }
        }
        match high {
            Some(_) => Err(NotBytes::Odd(run.to_owned())),
            None => Ok(()),
        }
    }
}

fn separates(char: char) -> bool {
    char.is_whitespace() || matches!(char, ',' | ':')
}

/// The bytes of these words, of which there is at least one.
pub fn parsed(words: &[&str]) -> Result<Vec<u8>, NotBytes> {
    let mut hex = Hex::default();
    for word in words {
        hex.take(word)?;
    }
    if hex.bytes.is_empty() {
        return Err(NotBytes::Empty);
    }
    Ok(hex.bytes)
}

/// The bytes in upper case, with a space between them.
pub fn spelt(bytes: &[u8]) -> String {
    let mut spelt = String::with_capacity(3 * bytes.len());
    for byte in bytes {
        let space = if spelt.is_empty() { "" } else { " " };
        write!(spelt, "{space}{byte:02X}").expect("a String takes all");
    }
    spelt
}
