//! How the packets of a generation of devices are framed.

/// Behind the start byte stand checksum and length, each of their bytes stuffed, and behind both
/// packet number, command and data, of which only those bytes are stuffed that must be.
pub struct Framing {
    pub checksum: Part,
    pub length: Part,
    pub counted: Counted,
    /// The checksum's polynomial.
    pub polynomial: u16,
    /// The highest length that is right, and how much data a command has at most before stuffing.
    pub highest: usize,
    pub longest_data: usize,
    /// Where the device's paper has a packet's structure, and the data of each command.
    pub structure: &'static str,
    pub commands: &'static str,
}

/// A number that is always stuffed: how far behind the start it stands, and how many bytes it has
/// before stuffing.
#[derive(Clone, Copy)]
pub struct Part {
    pub behind_start: usize,
    pub size: usize,
}

/// Which bytes the length counts, as they stand on the line.
#[derive(Clone, Copy, PartialEq, Eq)]
pub enum Counted {
    /// Those that the checksum is of.
    Same,
    /// All, from start to stop.
    Whole,
}

impl Framing {
    /// How far behind the start packet number, command and data begin.
    pub fn front(&self) -> usize {
        1 + 2 * (self.checksum.size + self.length.size)
    }

    /// As many bytes of packet number, command and data as a length can tell: what a packet with
    /// more has in it nobody asks.
    pub fn most_covered(&self) -> usize {
        match self.counted {
            Counted::Same => self.highest,
            Counted::Whole => self.highest - self.front() - 1,
        }
    }

    /// The most bytes of a packet that has no more data than it may: all that can be stuffed is.
    pub fn longest(&self) -> usize {
        self.front() + (2 * (2 + self.longest_data)).min(self.most_covered()) + 1
    }
}
