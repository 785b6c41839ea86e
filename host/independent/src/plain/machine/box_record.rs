//! The box: making one, lending it, reading it out.

use super::{PartialFrame, Profile, Run};
use crate::plain::answer::{BOX_RECORD, PART, PROFILE, SPLIT};
use crate::plain::ring;
use crate::{Part, Ring};

/// All that a box keeps.
#[derive(Clone, Copy, Debug, Default, PartialEq, Eq)]
pub struct BoxRecord {
    pub profile: Profile,
    pub clock: u32,
    pub hold_a: u8,
    pub hold_b: u8,
    /// 0 idle, 1 running, 2 tripped.
    pub state: u16,
    pub run: Run,
    pub partial: PartialFrame,
    pub ring: Ring,
}

impl BoxRecord {
    /// "A fresh box is idle at clock 0, no hold, no frame open, empty ring." "Making a box tests 11,
    /// then a capacity of 16 to 4,096 bytes (else 13)".
    #[inline(never)]
    pub fn new(profile: Profile, capacity: usize) -> Result<BoxRecord, u8> {
        if !profile.good() {
            return Err(PROFILE);
        }
        let ring = Ring { capacity, start: 0, used: 0 };
        if !ring::good(&ring) {
            return Err(PART);
        }
        Ok(BoxRecord { profile, ring, ..BoxRecord::default() })
    }

    /// 12, 13, 14, then 16. Hands back how many bytes it copied.
    #[inline(never)]
    pub fn read_out(&self, buffer: &[u8], at: Part, out: &mut [u8]) -> Result<usize, u8> {
        if self.is_good() {
            ring::read_out(buffer, at, &self.ring, out)
        } else {
            Err(BOX_RECORD)
        }
    }

    /// The ring's part of the lent buffer, behind the tests that come "first of all": 12, 13, 14.
    #[inline(always)]
    pub(super) fn lent<'a>(&self, buffer: &'a mut [u8], at: Part) -> Result<&'a mut [u8], u8> {
        if !self.is_good() {
            return Err(BOX_RECORD);
        }
        let part = ring::part_mut(buffer, at, self.ring.capacity).ok_or(PART)?;
        if ring::splits(part, &self.ring) {
            Ok(part)
        } else {
            Err(SPLIT)
        }
    }
}
