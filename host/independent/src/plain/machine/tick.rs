//! A tick.

use super::trip::WATCHDOG;
use super::{list, turn, BoxRecord, Pulse, Run, Said, RUNNING};
use crate::plain::answer::{CLOCK_END, DONE};
use crate::plain::ring;
use crate::Part;

impl BoxRecord {
    /// "The clock moves on by one; holds fall by one, not below 0."
    #[inline(never)]
    pub fn tick(&mut self, buffer: &mut [u8], at: Part) -> Said {
        let part = match self.lent(buffer, at) {
            Ok(part) => part,
            Err(answer) => return Said::only(answer),
        };
        let Some(clock) = self.clock.checked_add(1) else {
            return Said::only(CLOCK_END);
        };
        self.clock = clock;
        self.hold_a = self.hold_a.saturating_sub(1);
        self.hold_b = self.hold_b.saturating_sub(1);
        let mut said = Said::only(DONE);
        if self.state == RUNNING {
            self.run.move_on();
            if self.run.watch == self.profile.watchdog {
                self.trip(part, WATCHDOG);
            } else {
                said.a = self.release(part, turn::a(&self.run));
                said.b = self.release(part, turn::b(&self.run));
            }
        }
        said
    }

    /// Releases the pulse of a channel whose turn it is. "Zero width or current releases nothing."
    #[inline(always)]
    fn release(&mut self, part: &mut [u8], due: Option<usize>) -> Pulse {
        match due {
            Some(channel) => {
                let setting = self.run.settings[channel];
                self.pulse(part, channel, setting.pulse_width, setting.pulse_current)
            }
            None => Pulse::default(),
        }
    }

    /// A pulse now, if it has a width and a current. Channels count from 0 here.
    #[inline(always)]
    pub(super) fn pulse(
        &mut self,
        part: &mut [u8],
        channel: usize,
        width: u16,
        current: u8,
    ) -> Pulse {
        if width == 0 || current == 0 {
            return Pulse::default();
        }
        let pulse = Pulse { clock: self.clock, channel: channel as u8 + 1, width, current };
        let record = ring::pulse(pulse.clock, pulse.channel, width, current);
        ring::append(part, &mut self.ring, record);
        pulse
    }
}

impl Run {
    /// "The position moves on by one, returning to 0 after t1 − 1 and adding one to the cycle, and
    /// the watchdog count rises by one". A waiting update "rules from the next position 0 on".
    #[inline(always)]
    fn move_on(&mut self) {
        self.watch += 1;
        self.position += 1;
        if u32::from(self.position) == list::t1(&self.list) {
            self.position = 0;
            self.cycle += 1;
            if self.waits == 1 {
                self.waits = 0;
                self.settings = std::mem::take(&mut self.waiting);
            }
        }
    }
}
