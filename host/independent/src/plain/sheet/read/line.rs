//! One line, from its front to its end.

use super::clock::Clock;
use crate::plain::ring::{answer, pulse, trip};
use crate::plain::sheet::digits::{of_one, of_three, of_two, three};
use crate::plain::sheet::texts::{CURRENTS, WIDTHS};
use crate::plain::sheet::words::word;
use crate::plain::sheet::{ANSWER, LINE, PULSE, TRIP};

/// Reads the line that stands first, and writes its record. Hands back how many bytes it has, and how
/// many the record; none if it is bad.
#[inline(always)]
pub fn line(line: &[u8; LINE], clock: &mut Clock, record: &mut [u8; 9]) -> Option<(usize, usize)> {
    let (clock, at) = clock.read(line)?;
    let kind = word(line, at);
    let at = at + 8;
    // Above a channel 1 there are 7.
    let channel = kind.wrapping_sub(PULSE + (1 << 56));
    if channel & !(7 << 56) == 0 {
        let channel = (channel >> 56) as u8 + 1;
        let (width, at) = width(line, at)?;
        let (current, at) = current(line, at)?;
        *record = pulse(clock, channel, width, current);
        Some((at, 9))
    } else if kind == ANSWER {
        let (ident, code, at) = match *line[at..].first_chunk()? {
            [ident @ b'0'..=b'3', b',', b',', b',', code @ (b'0' | b'3'..=b'9'), b'\n', _] => {
                (ident, code - b'0', at + 6)
            }
            [ident @ b'0'..=b'3', b',', b',', b',', b'1', b'0', b'\n'] => (ident, 10, at + 7),
            _ => return None,
        };
        *record.first_chunk_mut()? = answer(clock, ident - b'0', code);
        Some((at, 7))
    } else if kind == TRIP {
        let [b',', cause @ b'1'..=b'2', b'\n'] = *line[at..].first_chunk()? else {
            return None;
        };
        *record.first_chunk_mut()? = trip(clock, cause - b'0');
        Some((at + 3, 6))
    } else {
        None
    }
}

/// A width between its commas, and where that ends.
///
/// What stands there is taken for digits. If it is none, or not those of a width, then that number has
/// another text.
#[inline(always)]
fn width(line: &[u8; LINE], at: usize) -> Option<(u16, usize)> {
    let text = word(line, at);
    let digits = three(text >> 8);
    if line[at + 3] == b',' {
        let width = of_two(digits);
        same(text, *WIDTHS.get(width)?, 4).then_some((width as u16, at + 4))
    } else {
        let width = of_three(digits);
        same(text, *WIDTHS.get(width)?, 5).then_some((width as u16, at + 5))
    }
}

/// A current and the end of the line, in the same way.
#[inline(always)]
fn current(line: &[u8; LINE], at: usize) -> Option<(u8, usize)> {
    let text = word(line, at);
    let digits = three(text);
    if line[at + 1] == b',' {
        let current = of_one(digits);
        same(text, *CURRENTS.get(current)?, 3).then_some((current as u8, at + 3))
    } else if line[at + 2] == b',' {
        let current = of_two(digits);
        same(text, *CURRENTS.get(current)?, 4).then_some((current as u8, at + 4))
    } else {
        let current = of_three(digits);
        same(text, *CURRENTS.get(current)?, 5).then_some((current as u8, at + 5))
    }
}

/// Whether two texts begin with the same bytes.
#[inline(always)]
fn same(one: u64, other: u64, bytes: u32) -> bool {
    (one ^ other) << (64 - 8 * bytes) == 0
}
