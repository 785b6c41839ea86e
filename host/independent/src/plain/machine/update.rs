//! Update.

use super::{list, BoxRecord, Said, TRIPPED};
use crate::plain::answer::{self, DONE, NOT_GOOD, OVER_LIMIT, TIMING, WRONG_CHECK};
use crate::plain::codec::setting::{fields, good, sum, LENGTH};
use crate::plain::codec::{CHECK, UPDATE};
use crate::Setting;

impl BoxRecord {
    #[inline(always)]
    pub(super) fn update(&mut self, part: &mut [u8], frame: &[u8]) -> Said {
        let answer = self.update_answer(frame);
        self.decided(part, UPDATE, answer)
    }

    /// Decides the Update of a running list, or one "left open by a watchdog trip". "Accepted, it
    /// waits, replacing an earlier one".
    #[inline(always)]
    fn update_answer(&mut self, frame: &[u8]) -> u8 {
        let sum = entries(frame).fold(0u8, |all, entry| all.wrapping_add(sum(&entry)));
        if (frame[0] ^ sum) & CHECK != 0 {
            return WRONG_CHECK;
        }
        self.run.watch = 0;
        if self.state == TRIPPED {
            return answer::TRIPPED;
        }
        let mut settings = [Setting::default(); 8];
        let (mut all_good, mut largest_mode, mut over) = (true, 0, false);
        let mut listed = self.run.list.channel_stim;
        for entry in entries(frame) {
            let channel = listed.trailing_zeros() as usize & 7;
            listed &= listed.wrapping_sub(1);
            all_good &= good(&entry);
            largest_mode = largest_mode.max(entry.mode);
            over |= self.profile.over(channel, entry.pulse_width, entry.pulse_current);
            settings[channel] = entry;
        }
        if !all_good {
            NOT_GOOD
        } else if !list::keeps_second_rule(&self.run.list, largest_mode) {
            TIMING
        } else if over {
            OVER_LIMIT
        } else {
            self.run.waits = 1;
            self.run.waiting = settings;
            DONE
        }
    }
}

/// The channels of a whole frame, "lowest first".
#[inline(always)]
fn entries(frame: &[u8]) -> impl Iterator<Item = Setting> + '_ {
    frame[1..].chunks_exact(LENGTH).map(|bytes| fields(&[bytes[0], bytes[1], bytes[2]]))
}
