//! A difference, and where it was found.

use std::fmt::Debug;
use thiserror::Error;

/// What differed in which call of which trial.
#[derive(Clone, Debug, Error, PartialEq, Eq)]
#[error("{trial}, seed {seed}, call {call}: {what}")]
pub struct Failure {
    pub trial: &'static str,
    pub seed: u64,
    pub call: u64,
    pub what: String,
}

/// Names a trial in which something panics.
pub struct Named {
    pub trial: &'static str,
    pub seed: u64,
}

impl Drop for Named {
    fn drop(&mut self) {
        if std::thread::panicking() {
            eprintln!("the failing {}: seed {}", self.trial, self.seed);
        }
    }
}

/// Compares, and tells those lines of both that differ. `said` tells what was compared.
pub fn same<T: PartialEq + Debug>(
    found: &T,
    expected: &T,
    said: impl Fn() -> String,
) -> Result<(), String> {
    if found == expected {
        return Ok(());
    }
    let (found, expected) = (format!("{found:#?}"), format!("{expected:#?}"));
    let lines = found.lines().zip(expected.lines()).filter(|(found, expected)| found != expected);
    let lines: Vec<String> = lines
        .map(|(found, expected)| format!("\n  {}  should be  {}", found.trim(), expected.trim()))
        .collect();
    Err(said() + &lines.concat())
}

/// Compares bytes, and tells the first that differs.
pub fn same_bytes(found: &[u8], expected: &[u8], said: impl Fn() -> String) -> Result<(), String> {
    if found == expected {
        return Ok(());
    }
    let place = found.iter().zip(expected).position(|(found, expected)| found != expected);
    match place {
        Some(place) => Err(format!(
            "{}: byte {place} is {:02X} and should be {:02X}",
            said(),
            found[place],
            expected[place]
        )),
        None => Err(format!("{}: {} bytes for {}", said(), found.len(), expected.len())),
    }
}
