//! Commands in the words of `yarrowbell write`, one after the other.

use crate::write::Words;
use clap::{Command, FromArgMatches, Subcommand};
use thiserror::Error;

/// Made once, for that takes far longer than to use it.
pub struct Commands(Command);

#[derive(Debug, Error)]
pub enum NotCommand {
    #[error("{0:?} is no command: init, update, single, stop, bytes or end")]
    Unknown(String),
    #[error("{0}")]
    Words(String),
}

impl Commands {
    pub fn new() -> Commands {
        let command = Command::new("").no_binary_name(true);
        let command = command.disable_help_flag(true).disable_help_subcommand(true);
        Commands(Words::augment_subcommands(command))
    }

    /// There is at least one word.
    pub fn parsed(&mut self, words: &[&str]) -> Result<Words, NotCommand> {
        if self.0.find_subcommand(words[0]).is_none() {
            return Err(NotCommand::Unknown(words[0].to_owned()));
        }
        self.0
            .try_get_matches_from_mut(words)
            .and_then(|mut matches| Words::from_arg_matches_mut(&mut matches))
            .map_err(|error| NotCommand::Words(said(&error)))
    }
}

/// The error in one line, without its words on help.
fn said(error: &clap::Error) -> String {
    let said = error.to_string();
    let lines: Vec<&str> =
        said.lines().take_while(|line| !line.is_empty()).map(str::trim).collect();
    let line = lines.join(" ");
    line.strip_prefix("error: ").unwrap_or(&line).to_owned()
}
