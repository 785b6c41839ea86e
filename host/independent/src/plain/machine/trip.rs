//! Tripping.

use super::{BoxRecord, Run, TRIPPED};
use crate::plain::ring;

/// "03: clock 4, cause 1 (1 limit, at every 9; 2 watchdog)".
pub(super) const LIMIT: u8 = 1;
pub(super) const WATCHDOG: u8 = 2;

impl BoxRecord {
    /// "A trip keeps holds and the partial frame."
    #[inline(always)]
    pub(super) fn trip(&mut self, part: &mut [u8], cause: u8) {
        self.state = TRIPPED;
        self.run = Run::default();
        ring::append(part, &mut self.ring, ring::trip(self.clock, cause));
    }
}
