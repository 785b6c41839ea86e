//! What was in a capture.

use crate::packet::generation::Generation;
use crate::packet::reading::Reading;
use crate::words::{counted, thousands};
use std::fmt;
use yarrowbell::packets::NotRead;

#[derive(Default)]
pub struct Totals {
    /// All that are finished, and those of them that are refused.
    packets: u64,
    refused: u64,
    /// The bytes that are passed over, and those of a packet that is not finished.
    garbage: u64,
    unfinished: u64,
}

impl Totals {
    pub fn add<G: Generation>(&mut self, reading: &Reading<G>) {
        let given = &reading.given;
        self.garbage += given.passed().len() as u64;
        match reading.found.packet {
            Err(NotRead::Unfinished) => self.unfinished += given.packet().len() as u64,
            read => {
                self.packets += 1;
                self.refused += u64::from(read.is_err());
            }
        }
    }
}

impl fmt::Display for Totals {
    fn fmt(&self, out: &mut fmt::Formatter) -> fmt::Result {
        let packets = counted(self.packets, "packet");
        let refused = thousands(self.refused);
        let garbage = counted(self.garbage, "byte");
        let unfinished = counted(self.unfinished, "byte");
        write!(out, "{packets}, {refused} refused; {garbage} of garbage; {unfinished} unfinished")
    }
}
