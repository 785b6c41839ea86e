//! The good values (document 01, "The four frames").

use crate::command::{Command, Setting};

/// How many channels a list can have.
pub fn count(count: usize) -> bool {
    (1..=8).contains(&count)
}

/// Whether every value of the command is good; for Update, of the listed channels, and all zero
/// behind them.
pub fn command(command: &Command, listed: usize) -> bool {
    match command {
        Command::Init(init) => {
            init.n_factor <= 7
                && init.channel_stim != 0
                && (3..=29).contains(&init.group_time)
                && (4..=2045).contains(&init.main_time)
        }
        Command::Update(settings) => {
            count(listed)
                && settings[..listed].iter().all(|one| {
                    one.mode <= 2 && width(one.pulse_width) && current(one.pulse_current)
                })
                && settings[listed..].iter().all(|one| *one == Setting::default())
        }
        Command::Stop => true,
        Command::Single(single) => {
            single.channel_number <= 7 && width(single.pulse_width) && current(single.pulse_current)
        }
    }
}

/// Tables 6 and 10: "0,10..500".
fn width(width: u16) -> bool {
    width == 0 || (10..=500).contains(&width)
}

/// Tables 6 and 10: "0..127". Document 01: the field tables rule, not table 1.
fn current(current: u8) -> bool {
    current <= 127
}
