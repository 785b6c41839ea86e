//! Update: "Check 5; then per channel, lowest first", three bytes.

use super::frame::tested;
use super::{first, setting, Wrote, CHECK, HIGH, UPDATE};
use crate::plain::answer::{CUT, NOT_GOOD, OUTPUT_TOO_SHORT};
use crate::Setting;

/// "1 + 3 per listed channel".
#[inline(always)]
pub(super) fn length(count: usize) -> usize {
    1 + setting::LENGTH * count
}

/// The settings of a frame, zeros behind them: 17, 3, 4.
#[inline(always)]
pub(super) fn read(frame: &[u8]) -> Result<[Setting; 8], u8> {
    let mut settings = [Setting::default(); 8];
    let mut all = 0;
    let mut sum = 0u8;
    let mut good = true;
    for (bytes, entry) in frame[1..].chunks_exact(setting::LENGTH).zip(&mut settings) {
        *entry = setting::fields(&[bytes[0], bytes[1], bytes[2]]);
        all |= bytes[0] | bytes[1] | bytes[2];
        sum = sum.wrapping_add(setting::sum(entry));
        good &= setting::good(entry);
    }
    if all >= HIGH {
        return Err(CUT);
    }
    tested((frame[0] ^ sum) & CHECK == 0, good)?;
    Ok(settings)
}

/// Writes the settings of a list of `count` channels, lowest first; one past the count that is not
/// zero is 4.
#[inline(never)]
pub fn write_update(settings: &[Setting; 8], count: usize, out: &mut [u8]) -> Wrote {
    if count.wrapping_sub(1) > 7 {
        return Wrote::refused(NOT_GOOD);
    }
    let (listed, past) = settings.split_at(count);
    let mut sum = 0u8;
    let mut good = true;
    for entry in listed {
        sum = sum.wrapping_add(setting::sum(entry));
        good &= setting::good(entry);
    }
    for entry in past {
        good &= *entry == Setting::default();
    }
    if !good {
        return Wrote::refused(NOT_GOOD);
    }
    let Some(out) = out.get_mut(..length(count)) else {
        return Wrote::refused(OUTPUT_TOO_SHORT);
    };
    out[0] = first(UPDATE, sum);
    for (bytes, entry) in out[1..].chunks_exact_mut(setting::LENGTH).zip(listed) {
        bytes.copy_from_slice(&setting::bytes(entry));
    }
    Wrote::all(length(count))
}
