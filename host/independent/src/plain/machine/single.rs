//! Single.

use super::{BoxRecord, Said, HOLD, RUNNING, TRIPPED};
use crate::plain::answer::{self, DONE, LIST_RUNS, NOT_GOOD, OVER_LIMIT, WRONG_CHECK};
use crate::plain::codec::single::{checked, fields, good};
use crate::plain::codec::SINGLE;
use crate::Single;

impl BoxRecord {
    /// "Accepted, it releases its pulse in that call and sets the hold to 15."
    #[inline(always)]
    pub(super) fn single(&mut self, part: &mut [u8], bytes: &[u8; 25]) -> Said {
        let [a, b, c, d, ..] = *bytes;
        let single = fields(&[a, b, c, d]);
        let answer = self.single_answer(a, &single);
        let mut said = self.decided(part, SINGLE, answer);
        if answer == DONE {
            let channel = usize::from(single.channel_number);
            let pulse = self.pulse(part, channel, single.pulse_width, single.pulse_current);
            if channel < 4 {
                self.hold_a = HOLD;
                said.a = pulse;
            } else {
                self.hold_b = HOLD;
                said.b = pulse;
            }
        }
        said
    }

    #[inline(always)]
    fn single_answer(&mut self, first: u8, single: &Single) -> u8 {
        if !checked(first, single) {
            return WRONG_CHECK;
        }
        self.run.watch = 0;
        let channel = usize::from(single.channel_number);
        let hold = if channel < 4 { self.hold_a } else { self.hold_b };
        if self.state == TRIPPED {
            answer::TRIPPED
        } else if !good(single) {
            NOT_GOOD
        } else if self.state == RUNNING {
            LIST_RUNS
        } else if hold > 0 {
            answer::HOLD
        } else if self.profile.over(channel, single.pulse_width, single.pulse_current) {
            OVER_LIMIT
        } else {
            DONE
        }
    }
}
