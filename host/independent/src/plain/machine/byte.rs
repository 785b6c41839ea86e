//! A byte.

use super::list::update_length;
use super::{BoxRecord, PartialFrame, Said, RUNNING, TRIPPED};
use crate::plain::answer;
use crate::plain::codec::{self, ident, HIGH, INIT, STOP, UPDATE};
use crate::Part;

impl BoxRecord {
    #[inline(never)]
    pub fn byte(&mut self, buffer: &mut [u8], at: Part, byte: u8) -> Said {
        let part = match self.lent(buffer, at) {
            Ok(part) => part,
            Err(answer) => return Said::only(answer),
        };
        if byte >= HIGH {
            self.open(part, byte)
        } else if self.partial.len == 0 {
            Said::only(answer::LOW_BYTE)
        } else {
            self.partial.bytes[self.partial.len] = byte;
            self.partial.len += 1;
            if self.partial.len < self.partial.kept {
                Said::only(answer::UNFINISHED)
            } else {
                self.finished(part)
            }
        }
    }

    /// "A high byte always opens a frame; an unfinished one is dropped silently."
    #[inline(always)]
    fn open(&mut self, part: &mut [u8], first: u8) -> Said {
        let kept = match ident(first) {
            INIT => codec::init::LENGTH,
            UPDATE if self.state == RUNNING => update_length(&self.run.list),
            UPDATE => return self.no_list(part),
            STOP => return self.stop(part, first),
            _ => codec::single::LENGTH,
        };
        self.partial = PartialFrame::opened(first, kept);
        Said::only(answer::UNFINISHED)
    }

    /// "If no list runs then, that byte alone is answered 6 (or 10 when tripped) and its followers are
    /// strays."
    fn no_list(&mut self, part: &mut [u8]) -> Said {
        self.partial = PartialFrame::default();
        let answer = if self.state == TRIPPED { answer::TRIPPED } else { answer::NO_LIST };
        self.decided(part, UPDATE, answer)
    }
}
