//! The two sides that are compared: the library's calls, and those of the plain ring.

use independent::plain::ring;
use independent::{Part, Record, Ring};
use soak::alike;
use yarrowbell::calls;

pub trait Side {
    fn ready(buffer: &[u8], at: Part, ring: &Ring) -> Result<(), u8>;

    fn read_out(buffer: &[u8], at: Part, ring: &Ring, out: &mut [u8]) -> Result<usize, u8>;

    /// The push of the record's kind, which leaves the ring in its place.
    fn push(buffer: &mut [u8], at: Part, ring: &mut Ring, record: Record) -> Result<(), u8>;
}

pub struct Library;
pub struct Plain;

impl Side for Library {
    #[inline(always)]
    fn ready(buffer: &[u8], at: Part, ring: &Ring) -> Result<(), u8> {
        told(calls::ring_ready(buffer, alike::part(at), alike::ring(*ring)).into())
    }

    #[inline(always)]
    fn read_out(buffer: &[u8], at: Part, ring: &Ring, out: &mut [u8]) -> Result<usize, u8> {
        let readout = calls::ring_read_out(buffer, alike::part(at), alike::ring(*ring), out);
        told(readout.answer).map(|()| readout.used as usize)
    }

    #[inline(always)]
    fn push(buffer: &mut [u8], at: Part, ring: &mut Ring, record: Record) -> Result<(), u8> {
        let (at, before) = (alike::part(at), alike::ring(*ring));
        let pushed = match record {
            Record::Answer { clock, ident, answer } => {
                calls::ring_push_answer(buffer, at, before, clock, ident, answer)
            }
            Record::Pulse { clock, channel, width, current } => {
                calls::ring_push_pulse(buffer, at, before, clock, channel, width, current)
            }
            Record::Trip { clock, cause } => {
                calls::ring_push_trip(buffer, at, before, clock, cause)
            }
        };
        let left = pushed.ring;
        *ring = Ring {
            capacity: left.capacity as usize,
            start: left.start as usize,
            used: left.used as usize,
        };
        told(pushed.answer)
    }
}

impl Side for Plain {
    #[inline(always)]
    fn ready(buffer: &[u8], at: Part, ring: &Ring) -> Result<(), u8> {
        ring::ready(buffer, at, ring)
    }

    #[inline(always)]
    fn read_out(buffer: &[u8], at: Part, ring: &Ring, out: &mut [u8]) -> Result<usize, u8> {
        ring::read_out(buffer, at, ring, out)
    }

    #[inline(always)]
    fn push(buffer: &mut [u8], at: Part, ring: &mut Ring, record: Record) -> Result<(), u8> {
        ring::push(buffer, at, ring, &record)
    }
}

/// The library's answer as the plain side tells it.
#[inline(always)]
fn told(answer: u32) -> Result<(), u8> {
    match answer {
        0 => Ok(()),
        refusal => Err(refusal as u8),
    }
}
