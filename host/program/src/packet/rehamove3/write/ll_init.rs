//! `yarrowbell packet write rehamove3 ll-init`

use crate::packet::rehamove3::field::Field;
use crate::packet::{argument, named};
use crate::write::argument::Argument;
use clap::Args;
use yarrowbell::rehamove3::{Command, HighVoltage};

/// Write an Ll_init: the PC begins the low-level mode, and the high voltage is switched on
#[derive(Args)]
#[command(after_help = "\
Examples:
  yarrowbell packet write rehamove3 ll-init
  yarrowbell packet write rehamove3 ll-init --voltage 120V --packet 1")]
pub struct Words {
    /// High Voltage, 0 to 6, or its word: standard (which is 150 V), off, 30V, 60V, 90V, 120V, 150V
    #[arg(long, value_name = "V", default_value = "standard")]
    #[arg(value_parser = named::of::<u8>(Field::HighVoltage), allow_negative_numbers = true)]
    voltage: u8,
}

impl Words {
    pub fn command(&self) -> Command {
        Command::LlInit { voltage: HighVoltage(self.voltage) }
    }

    pub fn arguments(&self) -> Vec<Argument> {
        vec![argument::of("--voltage", Field::HighVoltage, self.voltage)]
    }
}
