//! `yarrowbell packet write rehamove3 ll-channel-config-ack`

use super::acknowledgement;
use crate::packet::rehamove3::field::Field;
use crate::packet::{argument, named};
use crate::write::argument::Argument;
use clap::Args;
use yarrowbell::rehamove3::{Command, Outcome};

/// Write an Ll_channel_config_ack: the response to an Ll_channel_config
#[derive(Args)]
#[command(after_help = "\
Examples:
  yarrowbell packet write rehamove3 ll-channel-config-ack --result no-error --packet 1
  yarrowbell packet write rehamove3 ll-channel-config-ack --result electrode-error \\
    --electrode-error-channel blue --packet 1")]
pub struct Words {
    #[command(flatten)]
    acknowledgement: acknowledgement::Words,

    /// Electrode error channel: red, blue, black, white or 0 to 3 if the result is an electrode
    /// error, and else a byte of no meaning
    #[arg(long, value_name = "C", default_value = "0")]
    #[arg(value_parser = named::of::<u8>(Field::ElectrodeErrorChannel), allow_negative_numbers = true)]
    electrode_error_channel: u8,
}

impl Words {
    pub fn command(&self) -> Command {
        let result = self.acknowledgement.result();
        Command::LlChannelConfigAck { result, electrode: self.electrode_error_channel }
    }

    pub fn arguments(&self) -> Vec<Argument> {
        let field = match self.acknowledgement.result() {
            Outcome::ELECTRODE_ERROR => Field::ElectrodeErrorChannel,
            _ => Field::NoElectrodeErrorChannel,
        };
        let electrode =
            argument::of("--electrode-error-channel", field, self.electrode_error_channel);
        self.acknowledgement.arguments().into_iter().chain([electrode]).collect()
    }
}
