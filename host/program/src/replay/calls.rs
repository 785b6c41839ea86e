//! The calls of a session as lines of CSV.

use crate::course::Event;
use crate::failure::{Failure, Out};
use crate::play::{play, Step};
use crate::progress::Progress;
use crate::session::Session;
use crate::unit::{Call, Unit};
use serde::{Serialize, Serializer};
use std::io;
use yarrowbell::Cause;

const HEAD: [&str; 9] =
    ["clock", "call", "byte", "answer", "reply", "channel", "width_us", "current_ma", "trip"];

#[derive(Serialize)]
struct Line {
    clock: u32,
    call: &'static str,
    byte: Option<Hex>,
    answer: u8,
    reply: Option<Hex>,
    channel: Option<u8>,
    width_us: Option<u16>,
    current_ma: Option<u8>,
    /// The cause's number.
    trip: Option<u8>,
}

/// A byte in two upper-case hex digits.
struct Hex(u8);

impl Serialize for Hex {
    fn serialize<S: Serializer>(&self, serializer: S) -> Result<S::Ok, S::Error> {
        serializer.collect_str(&format_args!("{:02X}", self.0))
    }
}

/// Plays a session on the first of the units, and prints a line for each call. Each step is handed
/// on. Hands back what there is to say of each unit at the end.
pub fn print(
    session: &Session,
    units: &mut [&mut dyn Unit],
    mut each: impl FnMut(Step) -> Result<(), Failure>,
    out: Out,
) -> Result<Vec<Option<Event>>, Failure> {
    let progress = Progress::beside_lines(session.number_of_calls(), "calls");
    let mut calls = Calls::begin(out)?;
    let ends = play(session, units, &progress, |step| {
        calls.step(&step)?;
        each(step)
    })?;
    calls.end()?;
    Ok(ends)
}

struct Calls<W: io::Write>(csv::Writer<W>);

impl<W: io::Write> Calls<W> {
    fn begin(out: W) -> Result<Calls<W>, Failure> {
        let mut lines = csv::WriterBuilder::new().has_headers(false).from_writer(out);
        lines.write_record(HEAD)?;
        Ok(Calls(lines))
    }

    /// The line of a call. No call releases two pulses: a slot of module A is a
    /// multiple of 5, one of B is 1 more, and t2 is a multiple of 5.
    fn step(&mut self, step: &Step) -> Result<(), Failure> {
        let told = step.of[0].told;
        let (call, byte) = match step.call {
            Call::Byte(byte) => ("byte", Some(Hex(byte))),
            Call::Tick => ("tick", None),
        };
        let pulse = told.released().next();
        let line = Line {
            clock: step.clock,
            call,
            byte,
            answer: told.answer.number(),
            reply: told.reply.map(Hex),
            channel: pulse.map(|pulse| pulse.channel),
            width_us: pulse.map(|pulse| pulse.width),
            current_ma: pulse.map(|pulse| pulse.current),
            trip: told.trip.map(Cause::number),
        };
        Ok(self.0.serialize(line)?)
    }

    fn end(mut self) -> Result<(), Failure> {
        Ok(self.0.flush()?)
    }
}
