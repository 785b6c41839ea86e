//! All packets of a capture.

use super::NotRead;
use std::iter::FusedIterator;
use std::marker::PhantomData;
use std::ops::Range;

/// A packet as the reader of its device gives it.
pub trait Captured: Copy {
    /// How many bytes of data a command has at most.
    const LONGEST_DATA: usize;

    /// Reads the first packet of `bytes`, and puts the data of its command to the start of `data`.
    fn read(bytes: &[u8], data: &mut [u8]) -> Result<Self, NotRead>;

    /// How many bytes of data its command has.
    fn size(&self) -> usize;

    /// How many bytes were used, to the stop and with any garbage before the start.
    fn used(&self) -> usize;
}

/// The packets of a capture, one behind the other.
#[derive(Clone, Debug)]
pub struct Packets<'a, P> {
    bytes: &'a [u8],
    /// Where the next one is looked for.
    at: usize,
    read: PhantomData<P>,
}

/// What was found behind the packet before, or at the capture's start.
#[derive(Clone, Debug, PartialEq, Eq)]
pub struct Found<P> {
    /// The bytes used, counted from the capture's start: garbage before the packet, and the packet to
    /// its stop; all the rest of the capture if no packet is finished in it.
    pub place: Range<usize>,
    /// The packet, or why there was none to read.
    pub packet: Result<P, NotRead>,
    data: Vec<u8>,
}

impl<P> Found<P> {
    /// The data of the packet's command; nothing if none was read.
    pub fn data(&self) -> &[u8] {
        &self.data
    }
}

impl<P> Packets<'_, P> {
    pub(crate) fn of(bytes: &[u8]) -> Packets<'_, P> {
        Packets { bytes, at: 0, read: PhantomData }
    }
}

impl<P: Captured> Iterator for Packets<'_, P> {
    type Item = Found<P>;

    fn next(&mut self) -> Option<Found<P>> {
        let rest = &self.bytes[self.at..];
        if rest.is_empty() {
            return None;
        }
        let mut data = vec![0; P::LONGEST_DATA];
        let packet = P::read(rest, &mut data);
        data.truncate(packet.map_or(0, |packet| packet.size()));
        let used = match packet {
            Ok(packet) => packet.used(),
            Err(NotRead::Unfinished) => rest.len(),
            Err(why) => why.used(),
        };
        let place = self.at..self.at + used;
        self.at = place.end;
        Some(Found { place, packet, data })
    }
}

impl<P: Captured> FusedIterator for Packets<'_, P> {}
