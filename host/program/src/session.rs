//! Session files: what was sent to a unit, and when.

use crate::failure::BadInput;
use crate::hex::{self, NotBytes};
use crate::input::{self, Source};
use crate::number;
use crate::order::{Order, OutOfOrder};
use crate::unit::Call;
use std::path::Path;
use thiserror::Error;

/// Bytes by the clocks at which they are sent, which do not fall, and the clock at the end.
#[derive(Debug, Default, PartialEq, Eq)]
pub struct Session {
    sent: Vec<(u32, u8)>,
    end: u32,
}

#[derive(Debug, Error)]
enum NotLine {
    #[error("{0:?} is no clock, a whole number from 0 to 4294967295")]
    Clock(String),
    #[error("a clock alone: bytes in hex follow it, or the word end")]
    Alone,
    #[error(transparent)]
    Order(#[from] OutOfOrder),
    #[error(transparent)]
    Bytes(#[from] NotBytes),
}

impl Session {
    pub fn of_file(file: &Source) -> Result<Session, BadInput> {
        Session::of_text(&file.text()?, file.name())
    }

    /// The session in a text, of which errors say that it is the file's.
    pub fn of_text(text: &str, file: &Path) -> Result<Session, BadInput> {
        let mut session = Session::default();
        let mut order = Order::default();
        for (line, words) in input::lines(text) {
            if let [clock, rest @ ..] = &words[..] {
                session
                    .take(clock, rest, &mut order)
                    .map_err(|wrong| BadInput::line(file, line, wrong))?;
            }
        }
        session.end = order.last();
        Ok(session)
    }

    /// Takes a line.
    fn take(&mut self, clock: &str, rest: &[&str], order: &mut Order) -> Result<(), NotLine> {
        order.line()?;
        let to = number::clock(clock).map_err(|_| NotLine::Clock(clock.to_owned()))?;
        order.at(to)?;
        match rest {
            [] => Err(NotLine::Alone),
            ["end", behind @ ..] => Ok(order.end(behind)?),
            words => {
                self.sent.extend(hex::parsed(words)?.into_iter().map(|byte| (to, byte)));
                Ok(())
            }
        }
    }

    /// The same session, but for its end: what was to be sent later is not sent.
    pub fn until(mut self, clock: u32) -> Session {
        self.sent.retain(|(at, _)| *at <= clock);
        Session { end: clock, ..self }
    }

    /// The bytes with their clocks.
    pub fn sent(&self) -> &[(u32, u8)] {
        &self.sent
    }

    pub fn end(&self) -> u32 {
        self.end
    }

    /// How many calls it makes.
    pub fn number_of_calls(&self) -> u64 {
        u64::from(self.end) + self.sent.len() as u64
    }

    /// A tick for each tenth of a millisecond, and between them the bytes.
    pub fn calls(&self) -> impl Iterator<Item = Call> + '_ {
        let mut sent = self.sent.iter().peekable();
        let mut now = 0;
        std::iter::from_fn(move || {
            if let Some((_, byte)) = sent.next_if(|(clock, _)| *clock == now) {
                Some(Call::Byte(*byte))
            } else if now < self.end {
                now += 1;
                Some(Call::Tick)
            } else {
                None
            }
        })
    }
}
