//! What a running list has, all zero "whenever the box is not running".

use super::{list, Profile};
use crate::plain::codec;
use crate::{Init, Setting};

/// A channel's setting stands at its number less one.
#[derive(Clone, Copy, Debug, Default, PartialEq, Eq)]
pub struct Run {
    pub list: Init,
    pub settings: [Setting; 8],
    /// 1 while an Update waits.
    pub waits: u32,
    pub waiting: [Setting; 8],
    pub position: u16,
    pub cycle: u32,
    pub watch: u32,
}

impl Run {
    /// The run of a box that is not running.
    #[inline(always)]
    pub(super) fn zero(&self) -> bool {
        let Init { n_factor, channel_stim, channel_lf, group_time, main_time } = self.list;
        let list = u32::from(n_factor | channel_stim | channel_lf | group_time) | self.waits;
        let numbers = u32::from(main_time | self.position) | self.cycle | self.watch;
        list | numbers | any(&self.settings) | any(&self.waiting) == 0
    }

    /// The run of a running list: good values, "both timing rules and the profile, position is below
    /// t1, cycle not above the clock, the watchdog count below the watchdog". What does not wait is
    /// zero.
    #[inline(always)]
    pub(super) fn good(&self, profile: &Profile, clock: u32) -> bool {
        let listed = self.list.channel_stim;
        let running = largest_mode(&self.settings, listed, profile);
        let waiting = match self.waits {
            0 if any(&self.waiting) == 0 => Some(0),
            1 => largest_mode(&self.waiting, listed, profile),
            _ => None,
        };
        let (Some(running), Some(waiting)) = (running, waiting) else {
            return false;
        };
        codec::init::good(&self.list)
            & list::keeps_first_rule(&self.list)
            & list::keeps_second_rule(&self.list, running.max(waiting))
            & !list::over(&self.list, profile)
            & (u32::from(self.position) < list::t1(&self.list))
            & (self.cycle <= clock)
            & (self.watch < profile.watchdog)
    }
}

/// All bits of the settings.
#[inline(always)]
fn any(settings: &[Setting; 8]) -> u32 {
    settings.iter().fold(0, |all, setting| all | bits(setting))
}

/// All bits of a setting.
#[inline(always)]
fn bits(setting: &Setting) -> u32 {
    u32::from(setting.pulse_width)
        | u32::from(setting.mode) << 16
        | u32::from(setting.pulse_current) << 24
}

/// The largest Mode of settings with good values that keep the profile, those not listed zero.
///
/// The profile is good, so that its limits are those of the good values too, and a charge within the
/// other limits has 16 bits. What is over a limit is summed up by how far it is over.
#[inline(always)]
fn largest_mode(settings: &[Setting; 8], listed: u8, profile: &Profile) -> Option<u8> {
    let charge = profile.charge as u16;
    let mut largest = 0;
    let mut over = 0;
    for (channel, setting) in settings.iter().map(bits).enumerate() {
        let (width, above) = (setting as u16, (setting >> 16) as u16);
        let (mode, current) = (above & 255, above >> 8);
        let unlisted = if listed & 1 << channel == 0 { u16::MAX } else { 0 };
        largest = largest.max(mode);
        over |= current.saturating_sub(profile.currents[channel].into())
            | width.saturating_sub(profile.widths[channel])
            | current.wrapping_mul(width).saturating_sub(charge)
            | 9u16.saturating_sub(width.wrapping_sub(1))
            | unlisted & (width | above);
    }
    ((over == 0) & (largest <= 2)).then_some(largest as u8)
}
