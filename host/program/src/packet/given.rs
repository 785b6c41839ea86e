//! The bytes given for a packet, against its layout. What the library says of them decides; this is
//! where its words come from, and a test holds the two together.

use super::always::Always;
use super::checksum;
use super::framing::{Counted, Framing, Part};
use super::stuffing::{is_stuffed, KEY, START, STOP, STUFFING};

/// All places are counted from the first of all bytes.
pub struct Given<'a> {
    pub framing: &'static Framing,
    all: &'a [u8],
    /// From here on a packet is looked for.
    from: usize,
    /// The start byte of the first packet that ends, or of the last one if none does.
    pub start: Option<usize>,
    pub stop: Option<usize>,
    /// How many packets before it a new start byte dropped.
    pub dropped: usize,
}

/// What stands for one byte before stuffing: the byte itself, or a pair.
#[derive(Clone, Copy)]
pub struct Unit<'a> {
    pub at: usize,
    pub bytes: &'a [u8],
    /// None where a pair, or a byte by itself, is one that nothing is stuffed to.
    pub plain: Option<u8>,
}

impl<'a> Given<'a> {
    pub fn new(framing: &'static Framing, all: &'a [u8], from: usize) -> Given<'a> {
        let mut given = Given { framing, all, from, start: None, stop: None, dropped: 0 };
        let mut before = 0;
        for (at, byte) in all.iter().enumerate().skip(from) {
            match (*byte, before, given.start) {
                (START | STOP, STUFFING, _) => (),
                (START, _, open) => {
                    given.dropped += usize::from(open.is_some());
                    given.start = Some(at);
                }
                (STOP, _, Some(_)) => {
                    given.stop = Some(at);
                    break;
                }
                _ => (),
            }
            before = *byte;
        }
        given
    }

    /// The bytes before the packet, or all if there is none.
    pub fn passed(&self) -> &'a [u8] {
        &self.all[self.from..self.start.unwrap_or(self.all.len())]
    }

    /// Where they begin.
    pub fn from(&self) -> usize {
        self.from
    }

    /// The packet from its start to its stop, or as far as it goes.
    pub fn packet(&self) -> &'a [u8] {
        let start = self.start.unwrap_or(self.all.len());
        &self.all[start..self.stop.map_or(self.all.len(), |stop| stop + 1)]
    }

    /// The bytes behind the packet.
    pub fn behind(&self) -> &'a [u8] {
        self.stop.map_or(&[], |stop| &self.all[stop + 1..])
    }

    /// The place of the stop, or where it would be.
    pub fn end(&self) -> usize {
        self.stop.unwrap_or(self.all.len())
    }

    pub fn checksum(&self) -> Always<'a> {
        self.always(self.framing.checksum)
    }

    pub fn length(&self) -> Always<'a> {
        self.always(self.framing.length)
    }

    fn always(&self, part: Part) -> Always<'a> {
        let at = self.place(part.behind_start);
        let to = self.place(part.behind_start + 2 * part.size);
        Always { at, bytes: &self.all[at..to], size: part.size }
    }

    /// Where packet number, command and data begin.
    pub fn front(&self) -> usize {
        self.place(self.framing.front())
    }

    /// Packet number, command and data as they stand: what the checksum is of.
    pub fn covered(&self) -> &'a [u8] {
        &self.all[self.front()..self.end()]
    }

    /// The place of a byte so far behind the start, but not behind the end.
    fn place(&self, behind_start: usize) -> usize {
        let start = self.start.unwrap_or(self.all.len());
        (start + behind_start).min(self.end())
    }

    /// What the checksum is to be.
    pub fn right_checksum(&self) -> u16 {
        checksum::of(self.covered(), self.framing.polynomial, self.framing.checksum.size)
    }

    /// What the length is to be.
    pub fn right_length(&self) -> usize {
        match self.framing.counted {
            Counted::Same => self.covered().len(),
            Counted::Whole => self.packet().len(),
        }
    }

    /// What stands for each byte of packet number, command and data, as many as a length can tell.
    pub fn units(&self) -> Vec<Unit<'a>> {
        let covered = self.covered();
        let (mut units, mut at) = (Vec::new(), self.front());
        let mut rest = &covered[..covered.len().min(self.framing.most_covered())];
        while let [first, behind @ ..] = rest {
            let (size, plain) = match (*first, behind.first()) {
                (STUFFING, Some(second)) => {
                    (2, Some(second ^ KEY).filter(|byte| is_stuffed(*byte)))
                }
                (byte, _) => (1, Some(byte).filter(|byte| !is_stuffed(*byte))),
            };
            units.push(Unit { at, bytes: &rest[..size], plain });
            (rest, at) = (&rest[size..], at + size);
        }
        units
    }
}

/// The bytes before stuffing, up to the first that there is none for.
pub fn plain(units: &[Unit]) -> Vec<u8> {
    units.iter().map_while(|unit| unit.plain).collect()
}
