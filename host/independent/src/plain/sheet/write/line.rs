//! Lines of records whose fields are in their ranges.

use super::clock::Clock;
use crate::plain::sheet::texts::{length, CURRENTS, WIDTHS};
use crate::plain::sheet::words::{of, put};
use crate::plain::sheet::{ANSWER, LINE, PULSE, TRIP};

/// The records that are not written yet.
pub struct Lines<'a> {
    rest: &'a [u8],
    clock: Clock,
}

impl<'a> Lines<'a> {
    pub fn of(readout: &'a [u8]) -> Lines<'a> {
        Lines { rest: readout, clock: Clock::NONE }
    }

    /// Writes lines, until there is none left or no room for any. Behind the last one, bytes that any
    /// line may have are written too. Hands back where it ends.
    pub fn put(&mut self, out: &mut [u8]) -> usize {
        let Lines { mut rest, mut clock } = *self;
        let mut end = 0;
        while let Some(line) = out[end..].first_chunk_mut() {
            if let Some((record @ [2, ..], behind)) = rest.split_first_chunk::<9>() {
                end += pulse(record, &mut clock, line);
                rest = behind;
            } else if let Some((record @ [1, ..], behind)) = rest.split_first_chunk::<7>() {
                end += answer(record, &mut clock, line);
                rest = behind;
            } else if let Some((record @ [3, ..], behind)) = rest.split_first_chunk::<6>() {
                end += trip(record, &mut clock, line);
                rest = behind;
            } else {
                break;
            }
        }
        *self = Lines { rest, clock };
        end
    }
}

#[inline(always)]
fn pulse(record: &[u8; 9], clock: &mut Clock, line: &mut [u8; LINE]) -> usize {
    let [_, at @ .., channel, low, high, current] = record;
    let at = clock.put(u32::from_le_bytes(*at), line);
    put(line, at, PULSE + (u64::from(*channel) << 56));
    let width = WIDTHS[usize::from(u16::from_le_bytes([*low, *high]) & 511)];
    put(line, at + 8, width);
    // It has 4 bytes or 5.
    let at = at + 8 + (length(width) & 5);
    let current = CURRENTS[usize::from(current & 127)];
    put(line, at, current);
    at + length(current)
}

#[inline(always)]
fn answer(record: &[u8; 7], clock: &mut Clock, line: &mut [u8; LINE]) -> usize {
    let [_, at @ .., ident, answer] = record;
    let at = clock.put(u32::from_le_bytes(*at), line);
    put(line, at, ANSWER);
    let ident = u64::from(*ident);
    if *answer == 10 {
        put(line, at + 8, of(*b"0,,,10\n\0") + ident);
        at + 15
    } else {
        put(line, at + 8, of(*b"0,,,0\n\0\0") + ident + (u64::from(*answer) << 32));
        at + 14
    }
}

#[inline(always)]
fn trip(record: &[u8; 6], clock: &mut Clock, line: &mut [u8; LINE]) -> usize {
    let [_, at @ .., cause] = record;
    let at = clock.put(u32::from_le_bytes(*at), line);
    put(line, at, TRIP);
    put(line, at + 8, of(*b",0\n\0\0\0\0\0") + (u64::from(*cause) << 8));
    at + 11
}
