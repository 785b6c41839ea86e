//! A frame out of a slice: "channel count (4); empty slice (1); low first byte (2); slice too short
//! for the frame (1); a later high byte before the frame's end (17); 3; 4."

use super::{ident, init, single, stop, update, CHECK, HIGH, INIT, SINGLE, STOP, UPDATE};
use crate::plain::answer::{CUT, LOW_BYTE, NOT_GOOD, UNFINISHED, WRONG_CHECK};
use crate::{Init, Setting, Single};

/// A frame of good values; an Update with its length.
pub(super) enum Frame {
    Init(Init),
    Update([Setting; 8], usize),
    Stop,
    Single(Single),
}

#[inline(always)]
pub(super) fn read(bytes: &[u8], count: usize) -> Result<Frame, u8> {
    if count.wrapping_sub(1) > 7 {
        return Err(NOT_GOOD);
    }
    let first = *bytes.first().ok_or(UNFINISHED)?;
    if first < HIGH {
        return Err(LOW_BYTE);
    }
    match ident(first) {
        INIT => {
            let frame = bytes.first_chunk::<{ init::LENGTH }>().ok_or(UNFINISHED)?;
            uncut(&frame[1..])?;
            let init = init::fields(frame);
            tested(init::checked(first, &init), init::good(&init))?;
            Ok(Frame::Init(init))
        }
        UPDATE => {
            let frame = bytes.get(..update::length(count)).ok_or(UNFINISHED)?;
            Ok(Frame::Update(update::read(frame)?, frame.len()))
        }
        SINGLE => {
            let frame = bytes.first_chunk::<{ single::LENGTH }>().ok_or(UNFINISHED)?;
            uncut(&frame[1..])?;
            let single = single::fields(frame);
            tested(single::checked(first, &single), single::good(&single))?;
            Ok(Frame::Single(single))
        }
        _ => {
            tested(first & CHECK == 0, true)?;
            Ok(Frame::Stop)
        }
    }
}

impl Frame {
    /// Its Ident and its length.
    #[inline(always)]
    pub(super) fn told(&self) -> (u8, usize) {
        match self {
            Frame::Init(_) => (INIT, init::LENGTH),
            Frame::Update(_, used) => (UPDATE, *used),
            Frame::Stop => (STOP, stop::LENGTH),
            Frame::Single(_) => (SINGLE, single::LENGTH),
        }
    }
}

/// 17, if one of the later bytes is high.
#[inline(always)]
fn uncut(later: &[u8]) -> Result<(), u8> {
    if later.iter().fold(0, |all, byte| all | byte) < HIGH {
        Ok(())
    } else {
        Err(CUT)
    }
}

/// 3, then 4.
#[inline(always)]
pub(super) fn tested(checked: bool, good: bool) -> Result<(), u8> {
    match (checked, good) {
        (true, true) => Ok(()),
        (true, false) => Err(NOT_GOOD),
        (false, _) => Err(WRONG_CHECK),
    }
}
