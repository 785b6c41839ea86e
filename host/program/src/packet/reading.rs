//! A packet as it is read: by the library, and against its layout for words.

use super::content;
use super::field::Value;
use super::generation::Generation;
use super::given::{plain, Given};
use super::reason::{self, Reason};
use yarrowbell::packets::{Captured, Found};
use yarrowbell::Answer;

pub struct Reading<'a, G: Generation> {
    pub given: Given<'a>,
    pub found: Found<G::Packet>,
    /// Why it is refused, if it is: what explains the library's answer.
    pub reason: Option<Reason<G::Field>>,
}

impl<'a, G: Generation> Reading<'a, G> {
    /// The first packet. There is at least one byte.
    pub fn first(bytes: &'a [u8]) -> Reading<'a, G> {
        let found = G::packets(bytes).next().expect("there is at least one byte");
        Reading::of(bytes, found)
    }

    /// What was found in all bytes.
    pub fn of(all: &'a [u8], found: Found<G::Packet>) -> Reading<'a, G> {
        let given = Given::new(&G::FRAMING, all, found.place.start);
        let explains = |reason: &Reason<G::Field>, answer| reason.answer() == answer;
        let reason = found.packet.err().and_then(|why| {
            reason::of::<G>(&given).filter(|reason| explains(reason, why.answer()))
        });
        Reading { given, found, reason }
    }

    pub fn answer(&self) -> Answer {
        self.found.packet.map_or_else(|why| why.answer(), |_| Answer::Done)
    }

    /// What the answer says of a packet, with its number.
    pub fn answer_told(&self) -> String {
        match self.found.packet {
            Ok(_) => format!("answer {}: good packet", Answer::Done.number()),
            Err(why) => why.to_string(),
        }
    }

    /// How many bytes the library used.
    pub fn used(&self) -> usize {
        self.found.packet.map_or_else(|why| why.used(), |packet| packet.used())
    }

    /// The command's name: of a packet that is refused, if its bytes tell.
    pub fn name(&self) -> Option<&'static str> {
        let number = match self.found.packet {
            Ok(packet) => G::read(&packet).command,
            Err(_) => content::command::<G>(&plain(&self.given.units()))?,
        };
        G::name(number)
    }

    /// Packet number, command and the command's fields: the library's, if it read them, else as far
    /// as the bytes go.
    pub fn values(&self) -> Vec<Value<G::Field>> {
        if let Ok(packet) = self.found.packet {
            let read = G::read(&packet);
            let front = [i32::from(read.packet), i32::from(read.command)];
            let front = G::FRONT.iter().zip(front);
            let front = front.map(|((field, _), number)| Value::once(*field, number));
            return front.chain(read.values).collect();
        }
        let laid_out = content::values::<G>(&plain(&self.given.units()));
        laid_out.into_iter().map(|placed| placed.value).collect()
    }
}
