//! A response that has a result and nothing else.

use crate::packet::rehastim2::field::Field;
use crate::packet::{argument, named};
use crate::write::argument::Argument;
use clap::Args;
use yarrowbell::rehastim2::ErrorCode;

#[derive(Args)]
pub struct Words {
    /// Result, 0 to -8, or its word: no-error, transfer-error, parameter-error, wrong-mode-error,
    /// motomed-connection-error, incompatible-protocol-version, invalid-motomed-trainer,
    /// motomed-busy-error, busy-error
    #[arg(long, value_name = "R")]
    #[arg(value_parser = named::of::<i8>(Field::Result), allow_negative_numbers = true)]
    result: i8,
}

impl Words {
    pub fn result(&self) -> ErrorCode {
        ErrorCode(self.result)
    }

    pub fn arguments(&self) -> Vec<Argument> {
        vec![argument::of("--result", Field::Result, self.result)]
    }
}
