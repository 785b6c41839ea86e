//! A ring in a lent buffer.

use crate::lent::Lent;
use independent::{Part, Ring, Trace};

/// What the calls are given, right or wrong.
#[derive(Clone, Debug)]
pub struct Placed {
    pub at: Part,
    pub ring: Ring,
    pub buffer: Lent,
}

impl Placed {
    /// Takes over the bytes and the numbers of a trace in the same part.
    pub fn take_over(&mut self, trace: &Trace) {
        self.buffer.slice_mut().copy_from_slice(trace.buffer());
        self.ring = trace.ring();
    }

    /// The used byte of this number, counted from the start.
    pub fn byte_mut(&mut self, number: usize) -> &mut u8 {
        let place = (self.ring.start + number) % self.ring.capacity;
        &mut self.buffer.slice_mut()[self.at.offset + place]
    }
}
