//! From a sheet to its records: 4 with the number of the first bad line, 16.

use super::fields::{record, HEADER};
use super::line::split;
use crate::record::Record;

/// Why a sheet is not read.
#[derive(Clone, Copy, Debug, PartialEq, Eq)]
pub enum NotRead {
    /// 4: "A sheet of any other shape or range is refused with 4 and the number of its first bad line".
    BadLine(usize),
    /// "Then comes 16 for a short output."
    OutputTooShort,
}

/// Reads a sheet, and puts its records to the start of `out` as a readout has them. Hands back how many
/// bytes they have.
pub fn read(sheet: &[u8], out: &mut [u8]) -> Result<usize, NotRead> {
    let records = records(sheet).map_err(NotRead::BadLine)?;
    let bytes: Vec<u8> = records.iter().flat_map(Record::bytes).collect();
    out.get_mut(..bytes.len()).ok_or(NotRead::OutputTooShort)?.copy_from_slice(&bytes);
    Ok(bytes.len())
}

/// The records of a sheet, or the number of its first bad line: "the header being line 1 and bad if the
/// sheet is empty, an unended line always bad".
fn records(sheet: &[u8]) -> Result<Vec<Record>, usize> {
    let mut lines = (1..).zip(split(sheet));
    let header = lines.next().and_then(|(_, fields)| fields);
    if header.is_none_or(|header| header != HEADER) {
        return Err(1);
    }
    lines.map(|(number, fields)| fields.as_ref().and_then(record).ok_or(number)).collect()
}
