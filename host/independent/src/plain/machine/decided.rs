//! A decided command. "A finished frame is tested: 3; 10; 4; 6 or 7; 5; 8; 9."

use super::trip::LIMIT;
use super::{BoxRecord, PartialFrame, Said};
use crate::plain::answer::OVER_LIMIT;
use crate::plain::codec::{ident, reply, INIT, UPDATE};
use crate::plain::ring;

impl BoxRecord {
    /// Decides the frame that the last byte finished. A Stop is none of these: it ends with its first
    /// byte.
    #[inline(always)]
    pub(super) fn finished(&mut self, part: &mut [u8]) -> Said {
        let PartialFrame { bytes, len, .. } = std::mem::take(&mut self.partial);
        match ident(bytes[0]) {
            INIT => self.init(part, &bytes),
            UPDATE => self.update(part, &bytes[..len]),
            _ => self.single(part, &bytes),
        }
    }

    /// The answer to a command: its record, "01: clock 4, Ident 1, answer 1", and its reply.
    #[inline(always)]
    pub(super) fn decided(&mut self, part: &mut [u8], ident: u8, answer: u8) -> Said {
        ring::append(part, &mut self.ring, ring::answer(self.clock, ident, answer));
        if answer == OVER_LIMIT {
            self.trip(part, LIMIT);
        }
        Said { answer, reply: reply(ident, answer), ..Said::default() }
    }
}
