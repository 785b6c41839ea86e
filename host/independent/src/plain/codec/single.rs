//! Single: "Check 5; Channel_Number in bits 6..4 and Width bits 8,7 in bits 1,0 (bits 3,2 don't
//! care); Width bits 6..0; Current 7".

use super::setting::good_pulse;
use super::{first, Wrote, CHECK, SINGLE};
use crate::plain::answer::{NOT_GOOD, OUTPUT_TOO_SHORT};
use crate::Single;

pub(crate) const LENGTH: usize = 4;

/// The variables of a frame, whatever their values.
#[inline(always)]
pub(crate) fn fields(frame: &[u8; LENGTH]) -> Single {
    let [_, a, b, c] = *frame;
    Single {
        channel_number: a >> 4 & 7,
        pulse_width: u16::from(a & 3) << 7 | u16::from(b),
        pulse_current: c,
    }
}

/// Whether the first byte has the right Check.
#[inline(always)]
pub(crate) fn checked(first: u8, single: &Single) -> bool {
    (first ^ sum(single)) & CHECK == 0
}

/// "Channel_Number 0 to 7", and the good values of a pulse.
#[inline(always)]
pub(crate) fn good(single: &Single) -> bool {
    (single.channel_number <= 7) & good_pulse(single.pulse_width, single.pulse_current)
}

#[inline(never)]
pub fn write_single(single: Single, out: &mut [u8]) -> Wrote {
    if !good(&single) {
        return Wrote::refused(NOT_GOOD);
    }
    let Some(out) = out.first_chunk_mut::<LENGTH>() else {
        return Wrote::refused(OUTPUT_TOO_SHORT);
    };
    let width = single.pulse_width;
    *out = [
        first(SINGLE, sum(&single)),
        single.channel_number << 4 | (width >> 7) as u8,
        width as u8 & 127,
        single.pulse_current,
    ];
    Wrote::all(LENGTH)
}

#[inline(always)]
fn sum(single: &Single) -> u8 {
    single.channel_number.wrapping_add(single.pulse_width as u8).wrapping_add(single.pulse_current)
}
