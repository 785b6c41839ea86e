//! `yarrowbell packet write rehastim2 get-stimulation-mode-ack`

use super::response;
use crate::packet::rehastim2::field::Field;
use crate::packet::{argument, named};
use crate::write::argument::Argument;
use clap::Args;
use yarrowbell::rehastim2::{Command, ErrorCode, StimulationMode};

/// "If Result ≠ 0, then byte 8 = stop byte".
const WITH_RESULT_0: &str =
    "Stimulation mode is there exactly if Result is 0 (source 000, section 4.2)";

/// Write a GetStimulationModeAck: the response to a GetStimulationMode
#[derive(Args)]
#[command(after_help = "\
Examples:
  yarrowbell packet write rehastim2 get-stimulation-mode-ack --result 0 --stimulation-mode 2
  yarrowbell packet write rehastim2 get-stimulation-mode-ack --result busy-error")]
pub struct Words {
    #[command(flatten)]
    response: response::Words,

    /// Stimulation mode, 0 to 2, or its word: start-mode, stimulation-initialized,
    /// stimulation-started; it is there exactly if the result is 0
    #[arg(long, value_name = "M")]
    #[arg(value_parser = named::of::<u8>(Field::StimulationMode), allow_negative_numbers = true)]
    stimulation_mode: Option<u8>,
}

impl Words {
    pub fn command(&self) -> Command {
        let mode = self.stimulation_mode.map(StimulationMode);
        Command::GetStimulationModeAck { result: self.response.result(), mode }
    }

    pub fn arguments(&self) -> Vec<Argument> {
        let no_error = self.response.result() == ErrorCode::NO_ERROR;
        let mode = match self.stimulation_mode {
            Some(mode) => argument::of("--stimulation-mode", Field::StimulationMode, mode),
            None => Argument {
                name: "--stimulation-mode".to_owned(),
                given: "none".to_owned(),
                broken: None,
            },
        };
        let there = self.stimulation_mode.is_some();
        let broken = if there == no_error { mode.broken } else { Some(WITH_RESULT_0) };
        let mut arguments = self.response.arguments();
        arguments.push(Argument { broken, ..mode });
        arguments
    }
}
