//! JSON for scripts. A value that there is not is null, bytes are hex as in every text, and times in
//! milliseconds have one decimal.

use crate::failure::{Failure, Out};
use serde::Serialize;
use std::io;

/// Prints a value in a line.
pub fn line(value: &impl Serialize, out: Out) -> Result<(), Failure> {
    serde_json::to_writer(&mut *out, value).map_err(io::Error::from)?;
    Ok(writeln!(out)?)
}

/// Tenths of a millisecond in milliseconds.
pub fn milliseconds(tenths: u32) -> f64 {
    f64::from(tenths) / 10.0
}
