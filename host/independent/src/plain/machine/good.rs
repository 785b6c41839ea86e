//! Whether a box record is good.

use super::{BoxRecord, HOLD, IDLE, RUNNING, TRIPPED};
use crate::plain::ring;

impl BoxRecord {
    /// "A box record is good if each number is in its range here" and all is as its state asks.
    #[inline(never)]
    pub fn good(&self) -> bool {
        self.is_good()
    }

    #[inline(always)]
    pub(super) fn is_good(&self) -> bool {
        let numbers = self.profile.good()
            & (self.hold_a <= HOLD)
            & (self.hold_b <= HOLD)
            & ring::good(&self.ring);
        let run = match self.state {
            RUNNING => self.run.good(&self.profile, self.clock),
            IDLE | TRIPPED => self.run.zero(),
            _ => false,
        };
        numbers && run && self.partial.good(self.state, &self.run)
    }
}
