//! The lines of a sheet behind its header, one after the other.

use super::clock::Clock;
use super::line::line;
use crate::plain::sheet::LINE;
use crate::sheet::NotRead;

/// The last bytes of a sheet, and zeros behind them, which no line has.
type End = [u8; 2 * LINE];

/// The lines that are not read yet, and the number of the last one that is.
#[derive(Clone)]
pub struct Lines<'a> {
    rest: &'a [u8],
    end: &'a End,
    number: usize,
    clock: Clock,
}

impl<'a> Lines<'a> {
    /// "The header being line 1".
    pub fn of(rest: &'a [u8], end: &'a End) -> Lines<'a> {
        Lines { rest, end, number: 1, clock: Clock::NONE }
    }

    pub fn is_empty(&self) -> bool {
        self.rest.is_empty()
    }

    /// Puts records one behind the other, until there is none left or no room for any. Behind the last
    /// one, bytes that any record may have are written too. Hands back where it ends.
    pub fn put(&mut self, out: &mut [u8]) -> Result<usize, NotRead> {
        let mut lines = self.clone();
        let mut end = 0;
        while let (Some(first), Some(record)) = (lines.first(), out[end..].first_chunk_mut()) {
            lines.number += 1;
            let (used, size) =
                line(first, &mut lines.clock, record).ok_or(NotRead::BadLine(lines.number))?;
            lines.rest = &lines.rest[used..];
            end += size;
        }
        *self = lines;
        Ok(end)
    }

    /// The bytes that the next line is among.
    #[inline(always)]
    fn first(&self) -> Option<&'a [u8; LINE]> {
        match self.rest.first_chunk() {
            Some(first) => Some(first),
            None if self.is_empty() => None,
            None => self.end[LINE - self.rest.len()..].first_chunk(),
        }
    }
}
