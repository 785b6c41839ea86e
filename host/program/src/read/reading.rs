//! Bytes as they are read: against the layout of their frame, and by the library.

use super::check::Check;
use crate::channels;
use crate::frame::given::{Given, Value};
use yarrowbell::{reply, Answer};

pub struct Reading<'a> {
    pub given: Given<'a>,
    /// The fields of which there are bits.
    pub values: Vec<Value>,
    /// Worked out if the frame is whole.
    pub check: Option<Check>,
    /// How many channels are listed, and whether an Update's bytes tell it.
    pub count: usize,
    pub told: bool,
    /// How many bytes the library used.
    pub used: usize,
    pub answer: Answer,
    /// The reply, if a command is decided.
    pub reply: Option<u8>,
}

impl<'a> Reading<'a> {
    /// There is at least one byte. Without the number of listed channels the bytes tell it.
    pub fn of(bytes: &'a [u8], channels: Option<usize>) -> Reading<'a> {
        let count = channels.unwrap_or_else(|| told_by(bytes));
        let read = yarrowbell::read(bytes, count);
        let given = Given::new(bytes, count);
        let values = given.values(read.as_ref().ok().map(|frame| &frame.command), count);
        let check = given.is_whole().then(|| Check::of(&values, given.modulus()));
        let (used, answer) = match read {
            Ok(frame) => (frame.used, Answer::Done),
            Err(why) => (0, why.answer()),
        };
        // No frame is read for a number that cannot be listed, and so no command decided.
        let decides = answer.decides() && (1..=8).contains(&count);
        let reply = decides.then(|| reply(bytes[0] >> 5 & 3, answer));
        Reading { given, values, check, count, told: channels.is_none(), used, answer, reply }
    }

    /// What the answer says of a frame.
    pub fn answer_words(&self) -> String {
        match self.answer {
            Answer::Done => "good frame".to_owned(),
            other => other.to_string(),
        }
    }

    /// What is wrong with the number of listed channels, if something is.
    pub fn note(&self) -> Option<String> {
        let listable = (1..=8).contains(&self.count);
        let note = || format!("--channels {} is not good: {}", self.count, channels::RULE);
        (!listable).then(note)
    }
}

/// The number of listed channels that the bytes of an Update tell.
fn told_by(bytes: &[u8]) -> usize {
    let low = bytes[1..].iter().take_while(|byte| **byte < 0x80).count();
    low.div_ceil(3).clamp(1, 8)
}
