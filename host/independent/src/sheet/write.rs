//! From a readout to its sheet: 14, 4, 16.

use super::fields::{fields, HEADER};
use super::line::join;
use super::{in_range, records};
use crate::record::Record;

/// The numbers of document 01 that request 03 names.
const NOT_GOOD: u8 = 4;
const BYTES_DO_NOT_SPLIT: u8 = 14;
const OUTPUT_TOO_SHORT: u8 = 16;

/// Writes the sheet of a readout to the start of `out`. Hands back how many bytes it has.
pub fn write(readout: &[u8], out: &mut [u8]) -> Result<usize, u8> {
    let records = records(readout).ok_or(BYTES_DO_NOT_SPLIT)?;
    if !records.iter().all(in_range) {
        return Err(NOT_GOOD);
    }
    let sheet = sheet(&records);
    out.get_mut(..sheet.len()).ok_or(OUTPUT_TOO_SHORT)?.copy_from_slice(&sheet);
    Ok(sheet.len())
}

/// The header and a line for each record.
fn sheet(records: &[Record]) -> Vec<u8> {
    let lines = records.iter().map(|record| join(fields(record)));
    std::iter::once(join(HEADER)).chain(lines).flatten().collect()
}
