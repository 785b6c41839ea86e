//! The comparison of the exports with both independent sheets, which is the soak's; what differs is told
//! by a panic.

use independent::sheet::NotRead;
use soak::sheets::agree;

/// The sheet of a readout, written to an output of any size.
pub fn write(readout: &[u8]) -> Result<Vec<u8>, u8> {
    write_into(readout, 44 + 4 * readout.len())
}

/// The sheet of a readout, written to an output of `room` bytes.
pub fn write_into(readout: &[u8], room: usize) -> Result<Vec<u8>, u8> {
    agree::write(readout, room).unwrap_or_else(|what| panic!("{what}"))
}

/// The bytes of a sheet's records, put to an output of any size.
pub fn read(sheet: &[u8]) -> Result<Vec<u8>, NotRead> {
    read_into(sheet, sheet.len())
}

/// The bytes of a sheet's records, put to an output of `room` bytes.
pub fn read_into(sheet: &[u8], room: usize) -> Result<Vec<u8>, NotRead> {
    agree::read(sheet, room).unwrap_or_else(|what| panic!("{what}"))
}
