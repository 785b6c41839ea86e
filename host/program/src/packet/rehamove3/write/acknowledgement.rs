//! An acknowledgement that has a result and nothing else.

use crate::packet::rehamove3::field::Field;
use crate::packet::{argument, named};
use crate::write::argument::Argument;
use clap::Args;
use yarrowbell::rehamove3::Outcome;

#[derive(Args)]
pub struct Words {
    /// Result, 0, 1, 2, 4, 7, 10 or 11, or its word: no-error, transfer-error, parameter-error,
    /// stimulation-timeout, not-initialized, electrode-error, unknown-command
    #[arg(long, value_name = "R")]
    #[arg(value_parser = named::of::<u8>(Field::Result), allow_negative_numbers = true)]
    result: u8,
}

impl Words {
    pub fn result(&self) -> Outcome {
        Outcome(self.result)
    }

    pub fn arguments(&self) -> Vec<Argument> {
        vec![argument::of("--result", Field::Result, self.result)]
    }
}
