//! How many bytes the lines of a readout have.

use crate::plain::answer::{NOT_GOOD, SPLIT};
use crate::plain::ring::hops;
use crate::plain::sheet::digits::count;

/// 14 where the readout does not split, 4 where a field is out of range.
///
/// A loop for each kind, as in the ring.
#[inline(always)]
pub fn lines(readout: &[u8]) -> Result<usize, u8> {
    let mut rest = readout;
    let mut size = 0;
    loop {
        let met = rest.len();
        while let Some((record @ [2, ..], behind)) = rest.split_first_chunk::<9>() {
            size += pulse(record).ok_or_else(|| bad(rest))?;
            rest = behind;
        }
        while let Some((record @ [1, ..], behind)) = rest.split_first_chunk::<7>() {
            size += answer(record).ok_or_else(|| bad(rest))?;
            rest = behind;
        }
        while let Some((record @ [3, ..], behind)) = rest.split_first_chunk::<6>() {
            size += trip(record).ok_or_else(|| bad(rest))?;
            rest = behind;
        }
        if rest.is_empty() {
            return Ok(size);
        }
        if rest.len() == met {
            return Err(SPLIT);
        }
    }
}

/// What is told of a readout whose record has a field out of range: "a readout that does not split is
/// 14, tested first".
#[cold]
fn bad(from: &[u8]) -> u8 {
    if hops(from, 0) == Some(0) {
        NOT_GOOD
    } else {
        SPLIT
    }
}

/// The bytes of the shortest line but its clock's, those of the clock, and of each digit more. None if a
/// field is out of range.
#[inline(always)]
fn pulse(record: &[u8; 9]) -> Option<usize> {
    let [_, clock @ .., channel, low, high, current] = record;
    let width = u16::from_le_bytes([*low, *high]);
    if !matches!(channel, 1..=8) || !matches!(width, 10..=500) || !matches!(current, 1..=127) {
        return None;
    }
    let more = [width >= 100, *current >= 10, *current >= 100].map(usize::from);
    Some(b",pulse,1,10,1,\n".len() + count(u32::from_le_bytes(*clock)) + more.iter().sum::<usize>())
}

#[inline(always)]
fn answer(record: &[u8; 7]) -> Option<usize> {
    let [_, clock @ .., ident, answer] = record;
    if *ident > 3 || !matches!(answer, 0 | 3..=10) {
        return None;
    }
    let more = usize::from(*answer == 10);
    Some(b",answer,0,,,0\n".len() + count(u32::from_le_bytes(*clock)) + more)
}

#[inline(always)]
fn trip(record: &[u8; 6]) -> Option<usize> {
    let [_, clock @ .., cause] = record;
    if !matches!(cause, 1..=2) {
        return None;
    }
    Some(b",trip,,,,1\n".len() + count(u32::from_le_bytes(*clock)))
}
