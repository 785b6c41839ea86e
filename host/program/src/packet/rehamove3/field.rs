//! The fields of packets: their names, their good values, and what their numbers mean.

use super::amounts::milliamps;
use super::names::COMMANDS;
use crate::packet::{field, names};
use yarrowbell::rehamove3::{self, Outcome};

/// A field of a packet, as source 002 names it in sections 2.2 and 4.
#[derive(Clone, Copy, Debug, PartialEq, Eq)]
pub enum Field {
    PacketNumber,
    CommandNumber,
    HighVoltage,
    Result,
    ExecutionStimulation,
    ChannelSelection,
    NumberOfPoints,
    Duration,
    Current,
    ElectrodeErrorChannel,
    /// The byte of that name where there is no electrode error.
    NoElectrodeErrorChannel,
    Reserved,
}

use Field::*;

/// "The 4 stimulation channels are coded in the following way", section 1.5.
const CHANNELS: [&str; 4] = ["red", "blue", "black", "white"];

/// The code of 0 mA: "f(x) = 2x + 300".
const ZERO: i32 = 300;

const EXECUTION: [&str; 2] = ["No Stimulation", "Stimulation will be executed"];

impl field::Field for Field {
    fn name(self) -> &'static str {
        match self {
            PacketNumber => "Packet number",
            CommandNumber => "Command number",
            HighVoltage => "High Voltage",
            Result => "Result",
            ExecutionStimulation => "Execution Stimulation",
            ChannelSelection => "Channel selection",
            NumberOfPoints => "Number of points",
            Duration => "Duration",
            Current => "Current",
            ElectrodeErrorChannel | NoElectrodeErrorChannel => "Electrode error channel",
            Reserved => "Reserved",
        }
    }

    fn is_reserved(self) -> bool {
        self == Reserved
    }

    /// "0 -> 1 Point, 1 -> 2 Points, etc."
    fn number(self, bits: u16) -> i32 {
        i32::from(bits) + i32::from(self == NumberOfPoints)
    }

    fn judged(self, value: i32) -> (bool, &'static str) {
        match self {
            PacketNumber => {
                ((0..=63).contains(&value), "Packet number is 0 to 63 (source 002, section 2.2)")
            }
            CommandNumber => (
                (0..=1023).contains(&value),
                "Command number is 0 to 1023 (source 002, section 2.2)",
            ),
            HighVoltage => {
                ((0..=6).contains(&value), "High Voltage is 0 to 6 (source 002, section 4.2)")
            }
            Result => (
                self.word(value).is_some(),
                "Result is 0, 1, 2, 4, 7, 10 or 11 (source 002, section 6)",
            ),
            ExecutionStimulation => (
                (0..=1).contains(&value),
                "Execution Stimulation is 0 or 1 (source 002, section 4.2)",
            ),
            ChannelSelection => {
                ((0..=3).contains(&value), "Channel selection is 0 to 3 (source 002, section 4.2)")
            }
            NumberOfPoints => {
                ((1..=16).contains(&value), "Number of points is 1 to 16 (source 002, section 4.2)")
            }
            Duration => {
                ((0..=4095).contains(&value), "Duration is 0 to 4095 µs (source 002, section 4.2)")
            }
            Current => (
                (40..=560).contains(&value),
                "Current is coded 40 to 560, -130.0 to 130.0 mA (document 02, request 13)",
            ),
            ElectrodeErrorChannel => (
                (0..=3).contains(&value),
                "Electrode error channel is 0 to 3 if Result is 10 (source 002, section 4.3)",
            ),
            NoElectrodeErrorChannel => (
                (0..=255).contains(&value),
                "Electrode error channel is 0 to 255 (source 002, section 4.3)",
            ),
            Reserved => (value == 0, "Reserved is 0 (source 002, section 4.2)"),
        }
    }

    fn word(self, value: i32) -> Option<&'static str> {
        let number = u8::try_from(value).ok();
        let one_of = |words: &[&'static str]| words.get(usize::from(number?)).copied();
        match self {
            CommandNumber => names::of(&COMMANDS, value.try_into().ok()?),
            HighVoltage => rehamove3::HighVoltage(number?).words(),
            Result => Outcome(number?).words(),
            ExecutionStimulation => one_of(&EXECUTION),
            ChannelSelection | ElectrodeErrorChannel => one_of(&CHANNELS),
            _ => None,
        }
    }

    /// A voltage is spelt as 120V.
    fn spelt(self, value: i32) -> Option<String> {
        let word = self.word(value)?;
        Some(match (self, word) {
            (HighVoltage, "Standard (150 V)") => "standard".to_owned(),
            (HighVoltage, volts) if volts.ends_with(" V") => volts.replace(' ', ""),
            _ => field::spelt(word),
        })
    }

    fn meaning(self, value: i32) -> String {
        match self {
            Duration => " µs".to_owned(),
            Current => format!(": {}", milliamps(value - ZERO)),
            NumberOfPoints => format!(": coded {}", value - 1),
            NoElectrodeErrorChannel => {
                ": of no meaning, for there is no electrode error".to_owned()
            }
            _ => self.word(value).map_or_else(String::new, |word| format!(": {word}")),
        }
    }
}

/// The code of a current in half milliamps.
pub fn coded(current: i16) -> i32 {
    i32::from(current) + ZERO
}

/// The current of a code, in half milliamps.
pub fn uncoded(code: i32) -> Option<i16> {
    i16::try_from(code - ZERO).ok()
}
