//! Stop.

use super::{BoxRecord, PartialFrame, Run, Said, HOLD, IDLE};
use crate::plain::answer::{DONE, WRONG_CHECK};
use crate::plain::codec::{CHECK, STOP};

impl BoxRecord {
    /// "Stop is accepted in any state: idle, hold of 15 on both modules." It drops an open frame, as
    /// every high byte does.
    #[inline(always)]
    pub(super) fn stop(&mut self, part: &mut [u8], first: u8) -> Said {
        self.partial = PartialFrame::default();
        if first & CHECK != 0 {
            return self.decided(part, STOP, WRONG_CHECK);
        }
        self.state = IDLE;
        self.run = Run::default();
        self.hold_a = HOLD;
        self.hold_b = HOLD;
        self.decided(part, STOP, DONE)
    }
}
