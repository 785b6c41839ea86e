//! One channel of an Update: "Mode in bits 6,5 and Width bits 8,7 in bits 1,0 of one byte (bits 4,3,2
//! don't care), Width bits 6..0, Current 7".

use crate::Setting;

/// How many bytes a channel has.
pub(crate) const LENGTH: usize = 3;

/// The variables of a channel's bytes, whatever their values.
#[inline(always)]
pub(crate) fn fields(bytes: &[u8; LENGTH]) -> Setting {
    let [a, b, c] = *bytes;
    Setting {
        mode: a >> 5 & 3,
        pulse_width: u16::from(a & 3) << 7 | u16::from(b),
        pulse_current: c,
    }
}

/// The bytes of good values.
#[inline(always)]
pub(crate) fn bytes(setting: &Setting) -> [u8; LENGTH] {
    let width = setting.pulse_width;
    [setting.mode << 5 | (width >> 7) as u8, width as u8 & 127, setting.pulse_current]
}

/// What it adds to the sum.
#[inline(always)]
pub(crate) fn sum(setting: &Setting) -> u8 {
    setting.mode.wrapping_add(setting.pulse_width as u8).wrapping_add(setting.pulse_current)
}

/// "Mode 0 to 2", and the good values of a pulse.
#[inline(always)]
pub(crate) fn good(setting: &Setting) -> bool {
    (setting.mode <= 2) & good_pulse(setting.pulse_width, setting.pulse_current)
}

/// "Width 0 or 10 to 500 µs; Current 0 to 127 mA".
#[inline(always)]
pub(crate) fn good_pulse(width: u16, current: u8) -> bool {
    ((width == 0) | (width.wrapping_sub(10) <= 500 - 10)) & (current <= 127)
}
