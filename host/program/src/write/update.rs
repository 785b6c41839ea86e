//! `yarrowbell write update`

use super::argument::Argument;
use crate::channels;
use crate::failure::BadInput;
use crate::field::Field;
use crate::setting::{self, Entry};
use clap::Args;
use yarrowbell::{Command, Setting};

/// Write an Update: the settings of all listed channels
#[derive(Args)]
#[command(after_help = "\
MODE is 0 (single pulse), 1 (doublet) or 2 (triplet); WIDTH is 0 or 10 to 500 in µs; CURRENT is 0
to 127 in mA. CHANNEL is 1 to 8; either all settings have theirs or none has. A frame does not hold
it: its settings are for the channels of the list that runs.

Examples, for two listed channels:
  yarrowbell write update 0:200:40 1:300:30
  yarrowbell write update 1:0:200:40 3:1:300:30")]
pub struct Words {
    /// One setting for each listed channel, lowest channel first
    #[arg(value_name = setting::SPELLING, required = true)]
    #[arg(value_parser = setting::parsed, allow_negative_numbers = true)]
    settings: Vec<Entry>,
}

impl Words {
    /// More than eight settings have no place here; the library refuses their count.
    pub fn command(&self) -> Result<Command, BadInput> {
        self.channels()?;
        let mut settings = [Setting::default(); 8];
        for (place, entry) in settings.iter_mut().zip(&self.settings) {
            *place = entry.setting;
        }
        Ok(Command::Update(settings))
    }

    pub fn count(&self) -> usize {
        self.settings.len()
    }

    /// The bits of their channels, if these are named.
    pub fn channels(&self) -> Result<Option<u8>, BadInput> {
        for pair in self.settings.windows(2) {
            let what = match (pair[0].channel, pair[1].channel) {
                (Some(one), Some(next)) if one >= next => {
                    format!("channel {next} behind channel {one}, and the lowest stands first")
                }
                (Some(_), None) | (None, Some(_)) => {
                    "either all settings have their channel or none has".to_owned()
                }
                _ => continue,
            };
            return Err(BadInput::argument(&name(), what));
        }
        Ok(self.settings.iter().map(|entry| entry.channel.map(channels::bit)).sum())
    }

    /// Their number, and then the three numbers of each.
    pub fn arguments(&self) -> Vec<Argument> {
        let number = Argument {
            name: name(),
            given: format!("a number of {} settings", self.count()),
            broken: (self.count() > 8).then_some(channels::RULE),
        };
        let entries = (1..).zip(&self.settings).flat_map(|(place, entry)| {
            let Setting { mode, width, current } = entry.setting;
            let name = format!("entry {place} ({entry})");
            [
                Argument::of(&name, format!("the mode {mode}"), Field::Mode, mode),
                Argument::of(&name, format!("the width {width}"), Field::PulseWidth, width),
                Argument::of(&name, format!("the current {current}"), Field::PulseCurrent, current),
            ]
        });
        std::iter::once(number).chain(entries).collect()
    }
}

fn name() -> String {
    format!("<{}>...", setting::SPELLING)
}
