//! A ring by all records that were pushed since it was empty.

use crate::record::Record;
use crate::ring::{Part, Ring};
use std::collections::VecDeque;

/// "The ring holds the longest tail of all records so far whose bytes total at most the capacity."
pub fn tail(all: &[Record], capacity: usize) -> &[Record] {
    let lengths: Vec<usize> = all.iter().map(|record| record.bytes().len()).collect();
    let total = |first: usize| lengths[first..].iter().sum::<usize>();
    let first = (0..=all.len()).find(|&first| total(first) <= capacity);
    &all[first.expect("the tail of no records has no bytes")..]
}

/// The tail as a queue, and what each byte of the lent buffer is.
///
/// All bytes pushed so far are one line. A record is written where the one before it ended, so that
/// byte n of the line is written n places behind the first, round at the part's end; the bytes
/// dropped are the line's front.
#[derive(Debug)]
pub struct Trace {
    buffer: Vec<u8>,
    at: Part,
    first: usize,
    tail: VecDeque<Record>,
    pushed: usize,
    dropped: usize,
}

impl Trace {
    /// An empty ring in this part of the buffer. Its first byte will stand at `first` of the part.
    pub fn new(buffer: Vec<u8>, at: Part, first: usize) -> Trace {
        Trace { buffer, at, first, tail: VecDeque::new(), pushed: 0, dropped: 0 }
    }

    pub fn push(&mut self, new: Record) {
        for byte in new.bytes() {
            self.buffer[self.at.offset + (self.first + self.pushed) % self.at.size] = byte;
            self.pushed += 1;
        }
        self.tail.push_back(new);
        while self.pushed - self.dropped > self.at.size {
            let oldest = self.tail.pop_front().expect("no record is longer than a part");
            self.dropped += oldest.bytes().len();
        }
    }

    pub fn buffer(&self) -> &[u8] {
        &self.buffer
    }

    /// The numbers that the box keeps of it.
    pub fn ring(&self) -> Ring {
        Ring {
            capacity: self.at.size,
            start: (self.first + self.dropped) % self.at.size,
            used: self.pushed - self.dropped,
        }
    }

    /// "Reading it out copies that tail, oldest first."
    pub fn bytes(&self) -> Vec<u8> {
        self.tail.iter().flat_map(Record::bytes).collect()
    }
}
