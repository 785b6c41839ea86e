//! What a box says to a call that it takes.

use crate::raw::{Released, Said};
use crate::{Answer, Cause, State};

/// The answer to a byte or a tick, and what came of it.
#[derive(Clone, Copy, Debug, PartialEq, Eq)]
pub struct Told {
    /// Document 01's answer, one of 0 to 10.
    pub answer: Answer,
    /// The byte to send back, if a command was decided.
    pub reply: Option<u8>,
    /// The pulse of module A, channels 1 to 4, and that of module B, channels 5 to 8.
    pub pulses: [Option<Released>; 2],
    /// Why the box tripped, if the call made it trip.
    pub trip: Option<Cause>,
}

impl Told {
    /// Of a call that took the box from one state to another.
    pub(crate) fn of_call(answer: Answer, said: Said, [from, to]: [State; 2]) -> Told {
        let trip = match answer {
            Answer::OverLimit => Some(Cause::Limit),
            _ => (from != to && to == State::Tripped).then_some(Cause::Watchdog),
        };
        let pulses = [said.a, said.b].map(|pulse| (pulse.channel != 0).then_some(pulse));
        Told { answer, reply: None, pulses, trip }
    }

    /// The same with the reply of a byte.
    pub(crate) fn with_reply(self, reply: u16) -> Told {
        let reply = || reply.try_into().expect("a reply is one byte");
        Told { reply: self.answer.decides().then(reply), ..self }
    }

    /// The pulses released, in their order.
    pub fn released(&self) -> impl Iterator<Item = Released> {
        self.pulses.into_iter().flatten()
    }
}
