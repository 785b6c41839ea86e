//! Init.

use super::{list, BoxRecord, Run, Said, HOLD, RUNNING};
use crate::plain::answer::{DONE, NOT_GOOD, OVER_LIMIT, TIMING, WRONG_CHECK};
use crate::plain::codec::init::{checked, fields, good};
use crate::plain::codec::INIT;
use crate::Init;

impl BoxRecord {
    #[inline(always)]
    pub(super) fn init(&mut self, part: &mut [u8], bytes: &[u8; 25]) -> Said {
        let [a, b, c, d, e, f, ..] = *bytes;
        let init = fields(&[a, b, c, d, e, f]);
        let answer = self.init_answer(a, &init);
        if answer == DONE {
            self.start(init);
        }
        self.decided(part, INIT, answer)
    }

    #[inline(always)]
    fn init_answer(&mut self, first: u8, init: &Init) -> u8 {
        if !checked(first, init) {
            return WRONG_CHECK;
        }
        self.run.watch = 0;
        if !good(init) {
            NOT_GOOD
        } else if !(list::keeps_first_rule(init) & list::keeps_second_rule(init, 0)) {
            TIMING
        } else if list::over(init, &self.profile) {
            OVER_LIMIT
        } else {
            DONE
        }
    }

    /// "Accepted in any state: running, position 0, cycle 0, settings all zero, no waiting update,
    /// hold of 15 on both modules."
    #[inline(always)]
    fn start(&mut self, list: Init) {
        self.state = RUNNING;
        self.run = Run { list, ..Run::default() };
        self.hold_a = HOLD;
        self.hold_b = HOLD;
    }
}
