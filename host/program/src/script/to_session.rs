//! A script turned into a session file.

use super::commands::{Commands, NotCommand};
use super::list::{List, NotListed};
use super::time::{self, NotTime};
use crate::failure::BadInput;
use crate::hex::{self, NotBytes};
use crate::input;
use crate::order::{Order, OutOfOrder};
use crate::words;
use crate::write::Words;
use std::path::Path;
use thiserror::Error;

/// How wide the bytes are at least, with their clock.
const COLUMN: usize = 27;

#[derive(Debug, Error)]
enum NotLine {
    #[error("{0:?} begins no line: a line is at, a time and a command, as at 5 stop")]
    NotAt(String),
    #[error("a time alone: a command follows it, or bytes, or the word end")]
    Alone,
    #[error(transparent)]
    Order(#[from] OutOfOrder),
    #[error(transparent)]
    Time(#[from] NotTime),
    #[error(transparent)]
    Bytes(#[from] NotBytes),
    #[error(transparent)]
    Command(#[from] NotCommand),
    #[error(transparent)]
    Value(#[from] BadInput),
    #[error(transparent)]
    List(#[from] NotListed),
}

/// The session file of a script, of which errors say that it is the file's.
pub fn session(script: &str, file: &Path) -> Result<String, BadInput> {
    let mut turning = Turning {
        order: Order::default(),
        list: List::default(),
        commands: Commands::new(),
        session: String::new(),
    };
    for (line, words) in input::lines(script) {
        if !words.is_empty() {
            turning.take(&words).map_err(|wrong| BadInput::line(file, line, wrong))?;
        }
    }
    Ok(turning.session)
}

/// What the lines so far have come to.
struct Turning {
    order: Order,
    list: List,
    commands: Commands,
    session: String,
}

impl Turning {
    fn take(&mut self, words: &[&str]) -> Result<(), NotLine> {
        self.order.line()?;
        let ["at", rest @ ..] = words else { return Err(NotLine::NotAt(words[0].to_owned())) };
        let (clock, rest) = time::taken(rest)?;
        self.order.at(clock)?;
        let line = match rest {
            [] => return Err(NotLine::Alone),
            ["end", behind @ ..] => {
                self.order.end(behind)?;
                format!("{clock} end\n")
            }
            ["bytes", words @ ..] => {
                let bytes = hex::parsed(words)?;
                self.list.see(&bytes);
                format!("{clock} {}\n", hex::spelt(&bytes))
            }
            words => {
                let frame = self.frame(words)?;
                self.list.see(&frame);
                let sent = format!("{clock} {}", hex::spelt(&frame));
                format!(
                    "{sent:COLUMN$} # {}\n",
                    words::command(&frame, self.list.bits().unwrap_or(0))
                )
            }
        };
        self.session += &line;
        Ok(())
    }

    /// The frame of a command in words.
    fn frame(&mut self, words: &[&str]) -> Result<Vec<u8>, NotLine> {
        let command = self.commands.parsed(words)?;
        let frame = command.frame()?;
        if let Words::Update(update) = &command {
            self.list.takes(update.count(), update.channels()?)?;
        }
        Ok(frame)
    }
}
