//! The variables of frames: their names, their good values, and what their numbers mean.

use crate::words;

/// A field of a frame, as source 003 names it.
#[derive(Clone, Copy, Debug, PartialEq, Eq)]
pub enum Field {
    Ident,
    Check,
    NFactor,
    ChannelStim,
    ChannelLf,
    GroupTime,
    MainTime,
    Mode,
    ChannelNumber,
    PulseWidth,
    PulseCurrent,
    DontCare,
}

use Field::*;

impl Field {
    pub fn name(self) -> &'static str {
        match self {
            Ident => "Ident",
            Check => "Check",
            NFactor => "N_Factor",
            ChannelStim => "Channel_Stim",
            ChannelLf => "Channel_Lf",
            GroupTime => "Group_Time",
            MainTime => "Main_Time",
            Mode => "Mode",
            ChannelNumber => "Channel_Number",
            PulseWidth => "Pulse_Width",
            PulseCurrent => "Pulse_Current",
            DontCare => "don't care",
        }
    }

    /// Whether the check is a sum over it.
    pub fn is_variable(self) -> bool {
        !matches!(self, Ident | Check | DontCare)
    }

    /// Document 01's rule, if the value is not good. The library decides by the same rules; this
    /// finds the value at fault.
    pub fn broken(self, value: u16) -> Option<&'static str> {
        self.judged(value).and_then(|(good, rule)| (!good).then_some(rule))
    }

    /// Document 01's rule for its values, if it has one.
    pub fn rule(self) -> Option<&'static str> {
        self.judged(0).map(|(_, rule)| rule)
    }

    /// Whether a value is good, and the rule for that.
    fn judged(self, value: u16) -> Option<(bool, &'static str)> {
        Some(match self {
            NFactor => (value <= 7, "N_Factor is 0 to 7"),
            ChannelStim => (value != 0, "a list has at least one channel"),
            GroupTime => {
                ((3..=29).contains(&value), "Group_Time is 3 to 29 (t2 from 3.0 to 16.0 ms)")
            }
            MainTime => {
                ((4..=2045).contains(&value), "Main_Time is 4 to 2045 (t1 from 3.0 to 1023.5 ms)")
            }
            Mode => (value <= 2, "Mode is 0, 1 or 2"),
            ChannelNumber => (value <= 7, "a channel is 1 to 8 (Channel_Number 0 to 7)"),
            PulseWidth => {
                (value == 0 || (10..=500).contains(&value), "a width is 0 or 10 to 500 µs")
            }
            PulseCurrent => (value <= 127, "a current is 0 to 127 mA"),
            Ident | Check | ChannelLf | DontCare => return None,
        })
    }

    /// What stands behind the number: its unit or its meaning.
    pub fn meaning(self, value: u16) -> String {
        match self {
            Ident => format!(": {}", words::COMMANDS[usize::from(value & 3)]),
            Check | DontCare => String::new(),
            NFactor if value == 0 => ": no cycle skipped".to_owned(),
            NFactor => format!(": {value} of {} cycles skipped", value + 1),
            ChannelStim | ChannelLf => format!(": {}", words::channels(value as u8)),
            GroupTime => format!(": t2 = {}", words::t2(value)),
            MainTime => format!(": t1 = {}", words::t1(value)),
            Mode if value > 2 => String::new(),
            Mode => format!(": {}", words::pulses(value as u8)),
            ChannelNumber => format!(": channel {}", value + 1),
            PulseWidth => " µs".to_owned(),
            PulseCurrent => " mA".to_owned(),
        }
    }
}
