//! The exports for the trace as a text sheet.

/// What the writer of a sheet reports.
#[derive(Clone, Copy, Debug, Default, PartialEq, Eq)]
#[repr(C)]
pub struct Written {
    /// Document 01's number: 0, or 14, 4 or 16 if nothing was written.
    pub answer: u64,
    /// How many bytes the sheet has, from the output's start on; 0 on a refusal.
    pub used: usize,
}

/// What the reader of a sheet reports.
#[derive(Clone, Copy, Debug, Default, PartialEq, Eq)]
#[repr(C)]
pub struct Read {
    /// Document 01's number: 0, or 4 or 16 if nothing was read.
    pub answer: u64,
    /// The number of the first bad line, the header being line 1; 0 where none is bad.
    pub line: usize,
    /// How many bytes the records have, from the output's start on; 0 on a refusal.
    pub used: usize,
}

extern "C" {
    pub(crate) fn yarrowbell_sheet_write(
        readout: *const u8,
        readout_length: usize,
        out: *mut u8,
        out_length: usize,
    ) -> Written;
    pub(crate) fn yarrowbell_sheet_read(
        sheet: *const u8,
        sheet_length: usize,
        out: *mut u8,
        out_length: usize,
    ) -> Read;
}
