//! What the sheets came across.

use crate::met::{told, ANSWERS};
use independent::sheet::{records, NotRead};
use independent::Record;

/// The answers that each call on sheets can be given.
const TO_WRITE: &[u8] = &[0, 4, 14, 16];
const TO_READ: &[u8] = &[0, 4, 16];

/// The most bytes that a ring has.
const RING: usize = 4_096;

/// All that is counted.
#[derive(Clone, Debug, Default)]
pub struct Counts {
    pub calls: u64,
    writes: [u64; ANSWERS],
    reads: [u64; ANSWERS],
    /// Lines of answers, pulses and trips, written and read.
    written: [u64; 3],
    read: [u64; 3],
    long_written: u64,
    long_read: u64,
    bad_headers: u64,
    bad_second_lines: u64,
    bad_later_lines: u64,
    bad_unended_lines: u64,
}

impl Counts {
    /// A readout that was written, or refused.
    pub fn write(&mut self, readout: &[u8], written: &Result<Vec<u8>, u8>) {
        self.calls += 1;
        self.writes[usize::from(*written.as_ref().err().unwrap_or(&0))] += 1;
        if written.is_ok() {
            lines(readout, &mut self.written);
            self.long_written += u64::from(readout.len() > RING);
        }
    }

    /// A sheet that was read, or refused.
    pub fn read(&mut self, sheet: &[u8], read: &Result<Vec<u8>, NotRead>) {
        self.calls += 1;
        let answer = match read {
            Ok(readout) => {
                lines(readout, &mut self.read);
                self.long_read += u64::from(readout.len() > RING);
                0
            }
            Err(NotRead::BadLine(line)) => {
                let ends = sheet.iter().filter(|byte| **byte == b'\n').count();
                let bad = [&mut self.bad_headers, &mut self.bad_second_lines];
                match bad.into_iter().nth(line - 1) {
                    Some(counted) => *counted += 1,
                    None => self.bad_later_lines += 1,
                }
                self.bad_unended_lines += u64::from(*line == ends + 1);
                4
            }
            Err(NotRead::OutputTooShort) => 16,
        };
        self.reads[answer] += 1;
    }

    /// Everything that a long run must meet, with how often it was met.
    pub fn lines(&self) -> Vec<(String, u64)> {
        let mut lines = vec![("calls on sheets".to_owned(), self.calls)];
        lines.extend(told("sheet write answered", TO_WRITE, &self.writes));
        lines.extend(told("sheet read answered", TO_READ, &self.reads));
        for (done, counts) in [("written", self.written), ("read", self.read)] {
            let kinds = ["answers", "pulses", "trips"].into_iter().zip(counts);
            lines.extend(kinds.map(|(kind, count)| (format!("lines of {kind} {done}"), count)));
        }
        let others = [
            ("sheets of more than a ring has written", self.long_written),
            ("sheets of more than a ring has read", self.long_read),
            ("bad headers", self.bad_headers),
            ("first bad lines that are the second", self.bad_second_lines),
            ("first bad lines behind that", self.bad_later_lines),
            ("first bad lines that are not ended", self.bad_unended_lines),
        ];
        lines.extend(others.map(|(what, count)| (what.to_owned(), count)));
        lines
    }
}

/// Counts the records of a readout by their kinds.
fn lines(readout: &[u8], counts: &mut [u64; 3]) {
    for record in records(readout).expect("all agree that it splits") {
        counts[match record {
            Record::Answer { .. } => 0,
            Record::Pulse { .. } => 1,
            Record::Trip { .. } => 2,
        }] += 1;
    }
}
