//! The trace as a text sheet (request 03), which a spreadsheet opens: a readout written as a sheet, and
//! a sheet read back into the bytes of its records. Both ways lose nothing.
//!
//! A sheet is text in lines, each ended by one line feed. The first is [`HEADER`]. Each other is a
//! record with six fields between commas: its clock, its kind, and what its kind has, in decimal
//! numbers without leading zeros; a field that it lacks is empty. An answer's Ident stands in the
//! column `channel`.
//!
//! ```
//! use yarrowbell::sheet;
//!
//! let readout = [2, 100, 0, 0, 0, 1, 200, 0, 40, 3, 115, 0, 0, 0, 1];
//! let written = sheet::of(&readout)?;
//! let lines = "clock,kind,channel,width_us,current_ma,code\n100,pulse,1,200,40,\n115,trip,,,,1\n";
//! assert_eq!(written, lines.as_bytes());
//! assert_eq!(sheet::readout(&written).as_deref(), Ok(&readout[..]));
//! # Ok::<(), sheet::NotWritten>(())
//! ```

mod bad_line;
mod field;
mod kind;
mod not_read;
mod not_written;

pub use bad_line::BadLine;
pub use field::{Column, Field};
pub use kind::Kind;
pub use not_read::NotRead;
pub use not_written::NotWritten;

use crate::calls::sheet as calls;
use crate::Answer;

/// The first line of a sheet.
pub const HEADER: &str = "clock,kind,channel,width_us,current_ma,code\n";

/// How many bytes the sheet of a readout of so many bytes has at most.
pub fn room(readout: usize) -> usize {
    HEADER.len() + 4 * readout
}

/// Writes the sheet of a readout to the start of `out`: how many bytes it has.
pub fn write(readout: &[u8], out: &mut [u8]) -> Result<usize, NotWritten> {
    let written = calls::write(readout, out);
    match Answer::known(written.answer) {
        Answer::Done => Ok(written.used),
        answer => Err(NotWritten::known(answer, readout)),
    }
}

/// Puts the bytes of a sheet's records to the start of `out`, as a readout has them: how many there
/// are. They are never more than the sheet has.
pub fn read(sheet: &[u8], out: &mut [u8]) -> Result<usize, NotRead> {
    let read = calls::read(sheet, out);
    match Answer::known(read.answer) {
        Answer::Done => Ok(read.used),
        answer => Err(NotRead::known(answer, sheet, read.line)),
    }
}

/// The sheet of a readout.
pub fn of(readout: &[u8]) -> Result<Vec<u8>, NotWritten> {
    let mut out = vec![0; room(readout.len())];
    let used = write(readout, &mut out)?;
    out.truncate(used);
    Ok(out)
}

/// The bytes of a sheet's records, as a readout has them.
///
/// ```
/// use yarrowbell::sheet;
///
/// let edited = "clock,kind,channel,width_us,current_ma,code\n100,pulse,1,600,40,\n";
/// let why = sheet::readout(edited.as_bytes()).expect_err("no pulse is so wide");
/// assert_eq!(
///     why.to_string(),
///     "line 2: width_us is 600, and a pulse has 10 to 500 (answer 4: value not good)"
/// );
/// ```
pub fn readout(sheet: &[u8]) -> Result<Vec<u8>, NotRead> {
    let mut out = vec![0; sheet.len()];
    let used = read(sheet, &mut out)?;
    out.truncate(used);
    Ok(out)
}
