//! A command in the words that write it.

use crate::channels;
use crate::setting::Entry;
use yarrowbell::Command;

/// An Update's settings are those of the channels of a list, of which these are the bits.
pub fn spelt(command: &Command, list: u8) -> String {
    match command {
        Command::Init(init) => {
            let mut words = format!("init --channels {}", channels::argument(init.stim));
            if init.lf != 0 {
                words += &format!(" --low-frequency {}", channels::argument(init.lf));
            }
            if init.factor != 0 {
                words += &format!(" --skips {}", init.factor);
            }
            words + &format!(" --group-time {} --main-time {}", init.group, init.main)
        }
        Command::Update(settings) => {
            let entries = channels::of(list)
                .zip(settings)
                .map(|(channel, setting)| Entry { channel: Some(channel), setting: *setting });
            let words = entries.map(|entry| format!(" {entry}"));
            "update".to_owned() + &words.collect::<String>()
        }
        Command::Stop => "stop".to_owned(),
        Command::Single(single) => format!(
            "single --channel {} --width {} --current {}",
            single.channel + 1,
            single.width,
            single.current
        ),
    }
}
