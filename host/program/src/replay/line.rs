//! What a unit did, as a line of columns.

use crate::course::{Decided, Event, Pulse, What};
use crate::story::Totals;
use crate::{hex, json, words};
use serde::Serialize;
use yarrowbell::{Answer, Guard, State};

/// The columns of the CSV in their order, and the keys of the JSON. What an event does not have is
/// an empty cell, and null.
#[derive(Serialize)]
pub struct Line<'a> {
    /// After the call, in tenths of a millisecond and in milliseconds.
    clock: u32,
    ms: f64,
    /// `unit`; of two `first` or `second`.
    unit: &'a str,
    /// `command`, `stray`, `dropped`, `pulse`, `trip`, `unfinished` or `end`.
    event: &'static str,
    /// The frame's bytes as far as they came, or the stray one.
    bytes: Option<String>,
    /// The command's name, and the whole command as the story tells it.
    command: Option<&'static str>,
    command_words: Option<String>,
    /// The answer's number and what it says.
    answer: Option<u8>,
    answer_words: Option<String>,
    reply: Option<String>,
    /// Why the command was refused.
    reason: Option<String>,
    channel: Option<u8>,
    width_us: Option<u16>,
    current_ma: Option<u16>,
    /// The number of a trip's cause and what it says.
    cause: Option<u8>,
    cause_words: Option<String>,
    /// After the call.
    state: String,
    /// How many there were, at the end.
    commands: Option<usize>,
    pulses: Option<usize>,
    trips: Option<usize>,
    /// The ring's bytes at the end, if they are asked for.
    readout: Option<String>,
}

impl<'a> Line<'a> {
    pub fn of(event: &Event, unit: &'a str) -> Line<'a> {
        let line = |name| Line::new(event.clock, unit, name, event.state);
        match &event.what {
            What::Decided(decided) => line("command").decided(decided),
            What::Stray(byte) => line("stray").bytes(&[*byte]).answered(Answer::LowByte),
            What::Dropped(bytes) => line("dropped").frame(bytes),
            What::Unfinished(bytes) => line("unfinished").frame(bytes),
            What::Pulse(Pulse { channel, width, current }) => Line {
                channel: Some(*channel),
                width_us: Some(*width),
                current_ma: Some(*current),
                ..line("pulse")
            },
            What::Trip(cause) => Line {
                cause: Some(cause.number()),
                cause_words: Some(cause.to_string()),
                ..line("trip")
            },
        }
    }

    /// How a unit ended, with its ring's bytes or without.
    pub fn end(guard: &Guard, unit: &'a str, totals: &Totals, readout: bool) -> Line<'a> {
        let Totals { commands, pulses, trips } = *totals;
        Line {
            commands: Some(commands),
            pulses: Some(pulses),
            trips: Some(trips),
            readout: readout.then(|| hex::spelt(&guard.trace())),
            ..Line::new(guard.clock(), unit, "end", guard.state())
        }
    }

    fn new(clock: u32, unit: &'a str, event: &'static str, state: State) -> Line<'a> {
        Line {
            clock,
            ms: json::milliseconds(clock),
            unit,
            event,
            bytes: None,
            command: None,
            command_words: None,
            answer: None,
            answer_words: None,
            reply: None,
            reason: None,
            channel: None,
            width_us: None,
            current_ma: None,
            cause: None,
            cause_words: None,
            state: state.to_string(),
            commands: None,
            pulses: None,
            trips: None,
            readout: None,
        }
    }

    fn bytes(self, bytes: &[u8]) -> Line<'a> {
        Line { bytes: Some(hex::spelt(bytes)), ..self }
    }

    fn frame(self, bytes: &[u8]) -> Line<'a> {
        Line { command: Some(words::name(bytes[0])), ..self.bytes(bytes) }
    }

    fn answered(self, answer: Answer) -> Line<'a> {
        let (number, words) = (answer.number(), words::meaning(answer));
        Line { answer: Some(number), answer_words: Some(words), ..self }
    }

    fn decided(self, decided: &Decided) -> Line<'a> {
        let Decided { bytes, listed, answer, reply, reasons } = decided;
        let reasons: Vec<String> = reasons.iter().map(ToString::to_string).collect();
        Line {
            command_words: Some(words::command(bytes, *listed)),
            reply: Some(hex::spelt(&[*reply])),
            reason: (!reasons.is_empty()).then(|| reasons.join("; ")),
            ..self.frame(bytes).answered(*answer)
        }
    }
}
