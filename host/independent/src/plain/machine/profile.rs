//! Document 01, "Profile".

/// The limits of a box. A channel stands at its number less one.
#[derive(Clone, Copy, Debug, Default, PartialEq, Eq)]
pub struct Profile {
    pub currents: [u8; 8],
    pub widths: [u16; 8],
    pub charge: u32,
    pub shortest: u32,
    pub watchdog: u32,
}

impl Profile {
    /// "A profile is good exactly if each of its numbers is in its range."
    #[inline]
    pub fn good(&self) -> bool {
        let over = self.widths.iter().fold(0, |over, width| over | width.saturating_sub(500));
        // The currents at once: 127 is the most that has no bit 7.
        (u64::from_le_bytes(self.currents) & 0x8080_8080_8080_8080 == 0)
            & (over == 0)
            & (self.charge <= 63_500)
            & (self.shortest.wrapping_sub(30) <= 10_235 - 30)
            & (self.watchdog.wrapping_sub(1) < 600_000)
    }

    /// "One profile is nowhere looser than another if its shortest t1 is not smaller and none of its
    /// other numbers is greater."
    pub fn nowhere_looser(&self, than: &Profile) -> bool {
        self.currents.iter().zip(&than.currents).all(|(mine, other)| mine <= other)
            && self.widths.iter().zip(&than.widths).all(|(mine, other)| mine <= other)
            && self.charge <= than.charge
            && self.shortest >= than.shortest
            && self.watchdog <= than.watchdog
    }

    /// "Over a limit if one channel's current, width or charge is."
    #[inline(always)]
    pub(super) fn over(&self, channel: usize, width: u16, current: u8) -> bool {
        (current > self.currents[channel])
            | (width > self.widths[channel])
            | (u32::from(current) * u32::from(width) > self.charge)
    }
}
