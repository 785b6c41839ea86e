//! What a unit did in a session, as people tell it: commands, pulses and trips.

use crate::picture::{self, Panel};
use crate::play::Step;
use crate::reason::{self, Reason, Trip};
use crate::unit::Call;
use yarrowbell::raw::BoxRecord;
use yarrowbell::{Answer, Cause, Guard, State, Told};

#[derive(Clone, Debug, PartialEq, Eq)]
pub struct Event {
    pub clock: u32,
    /// The state that the call left.
    pub state: State,
    pub what: What,
}

#[derive(Clone, Debug, PartialEq, Eq)]
pub enum What {
    Decided(Decided),
    /// A low byte while no frame was open.
    Stray(u8),
    /// An unfinished frame was dropped, for a high byte came.
    Dropped(Vec<u8>),
    /// A frame is unfinished at the session's end.
    Unfinished(Vec<u8>),
    Pulse(Pulse),
    Trip(Cause),
}

/// A command was decided, by the last of these bytes.
#[derive(Clone, Debug, PartialEq, Eq)]
pub struct Decided {
    pub bytes: Vec<u8>,
    /// The bits of the channels that were listed when its first byte came.
    pub listed: u8,
    pub answer: Answer,
    pub reply: u8,
    /// Why it was refused, if it was.
    pub reasons: Vec<Reason>,
}

/// The channel is 1 to 8; the width is in microseconds, the current in milliamps.
#[derive(Clone, Copy, Debug, PartialEq, Eq)]
pub struct Pulse {
    pub channel: u8,
    pub width: u16,
    pub current: u16,
}

/// What some units did, each for itself.
pub struct Courses(pub Vec<Vec<Event>>);

impl Courses {
    pub fn of(units: usize) -> Courses {
        Courses(vec![Vec::new(); units])
    }

    pub fn add(&mut self, step: Step) {
        for (course, done) in self.0.iter_mut().zip(step.of) {
            course.extend(done.events);
        }
    }

    /// A picture of all under their titles, up to the clock at the end, with the lanes of all
    /// channels or of those that are used.
    pub fn drawn(&self, titles: &[impl AsRef<str>], end: u32, all_lanes: bool) -> String {
        let panels = titles.iter().map(AsRef::as_ref).zip(&self.0);
        let panels: Vec<Panel> = panels.map(|(title, events)| Panel { title, events }).collect();
        picture::svg(&panels, end, all_lanes)
    }
}

/// Turns what a unit says to its calls into events.
#[derive(Default)]
pub struct Watcher {
    /// The frame that is open, and the bits of the channels that were listed when it was opened.
    frame: Vec<u8>,
    listed: u8,
    trip: Option<Trip>,
}

impl Watcher {
    /// What came of a call, before which the unit had one record and after which it has this box.
    pub fn see(&mut self, call: Call, before: &BoxRecord, told: &Told, left: &Guard) -> Vec<Event> {
        let mut seen = Vec::new();
        if let Call::Byte(byte) = call {
            self.see_byte(byte, before, told, &mut seen);
        }
        seen.extend(told.released().map(|pulse| {
            let current = pulse.current.into();
            What::Pulse(Pulse { channel: pulse.channel, width: pulse.width, current })
        }));
        let (clock, state) = (left.clock(), left.state());
        if let Some(cause) = told.trip {
            self.trip = Some(Trip { clock, cause });
            seen.push(What::Trip(cause));
        }
        seen.into_iter().map(|what| Event { clock, state, what }).collect()
    }

    fn see_byte(&mut self, byte: u8, before: &BoxRecord, told: &Told, seen: &mut Vec<What>) {
        if byte >= 0x80 {
            self.listed = before.core.run.list.stim;
            if !self.frame.is_empty() {
                seen.push(What::Dropped(std::mem::take(&mut self.frame)));
            }
        }
        match (told.answer, told.reply) {
            (Answer::LowByte, _) => seen.push(What::Stray(byte)),
            (answer, Some(reply)) => {
                let mut bytes = std::mem::take(&mut self.frame);
                bytes.push(byte);
                let reasons = reason::of(before, &bytes, answer).into_iter();
                let reasons = reasons.map(|reason| reason.since(self.trip)).collect();
                let listed = self.listed;
                seen.push(What::Decided(Decided { bytes, listed, answer, reply, reasons }));
            }
            _ => self.frame.push(byte),
        }
    }

    /// What there is to say at the session's end, where the unit has this box.
    pub fn end(self, left: &Guard) -> Option<Event> {
        let (clock, state, what) = (left.clock(), left.state(), What::Unfinished(self.frame));
        (what != What::Unfinished(Vec::new())).then_some(Event { clock, state, what })
    }
}
