//! Init: "Check 3, N_Factor 3, Channel_Stim 8, Channel_Lf 8, two don't-care bits (bits 3 and 2 of
//! byte 4), Group_Time 5, Main_Time 11, over 7 bits a byte".

use super::{Wrote, HIGH};
use crate::plain::answer::{NOT_GOOD, OUTPUT_TOO_SHORT};
use crate::Init;

pub(crate) const LENGTH: usize = 6;

/// The variables of a frame, whatever their values.
#[inline(always)]
pub(crate) fn fields(frame: &[u8; LENGTH]) -> Init {
    let [a, b, c, d, e, f] = *frame;
    Init {
        n_factor: (a & 3) << 1 | b >> 6,
        channel_stim: (b & 63) << 2 | c >> 5,
        channel_lf: (c & 31) << 3 | d >> 4,
        group_time: (d & 3) << 3 | e >> 4,
        main_time: u16::from(e & 15) << 7 | u16::from(f),
    }
}

/// Whether the first byte has the right Check.
#[inline(always)]
pub(crate) fn checked(first: u8, init: &Init) -> bool {
    first >> 2 & 7 == check(init)
}

/// "Channel_Stim not 0; Group_Time 3 to 29 and Main_Time 4 to 2045".
#[inline(always)]
pub(crate) fn good(init: &Init) -> bool {
    (init.n_factor <= 7)
        & (init.channel_stim != 0)
        & (init.group_time.wrapping_sub(3) <= 29 - 3)
        & (init.main_time.wrapping_sub(4) <= 2045 - 4)
}

#[inline(never)]
pub fn write_init(init: Init, out: &mut [u8]) -> Wrote {
    if !good(&init) {
        return Wrote::refused(NOT_GOOD);
    }
    let Some(out) = out.first_chunk_mut::<LENGTH>() else {
        return Wrote::refused(OUTPUT_TOO_SHORT);
    };
    let Init { n_factor, channel_stim, channel_lf, group_time, main_time } = init;
    let [low, high] = main_time.to_le_bytes();
    *out = [
        HIGH | check(&init) << 2 | n_factor >> 1,
        (n_factor & 1) << 6 | channel_stim >> 2,
        (channel_stim & 3) << 5 | channel_lf >> 3,
        (channel_lf & 7) << 4 | group_time >> 3,
        (group_time & 7) << 4 | high << 1 | low >> 7,
        low & 127,
    ];
    Wrote::all(LENGTH)
}

/// "Check is the sum of all the command's variables, modulo 8 for Init".
#[inline(always)]
fn check(init: &Init) -> u8 {
    let sum = init
        .n_factor
        .wrapping_add(init.channel_stim)
        .wrapping_add(init.channel_lf)
        .wrapping_add(init.group_time)
        .wrapping_add(init.main_time as u8);
    sum & 7
}
