//! What is counted of the RehaMove3 alone: pulses, and packets as long as they may be.

use crate::packets::counts::starts;
use crate::packets::Written;
use independent::rehamove3::{Command, Reading};
use yarrowbell::rehamove3::LONGEST_PACKET;

const LONGEST: &str = "packets of 1,200 bytes read";
const TOO_LONG: &str = "packets of more than 1,200 bytes answered 4";
const BALANCED: &str = "pulses read without a net charge";
const NOT_BALANCED: &str = "pulses read with a net charge";
const NOT_WRITTEN: &str = "pulses not written for their net charge";

/// All of it.
pub fn all() -> Vec<String> {
    let named = [LONGEST, TOO_LONG, BALANCED, NOT_BALANCED, NOT_WRITTEN].map(str::to_owned);
    let points = (1..=16).flat_map(|number| ["read", "written"].map(|done| points(number, done)));
    named.into_iter().chain(points).collect()
}

fn points(number: u16, done: &str) -> String {
    format!("pulses {done}, points {number}")
}

/// What a reading of these bytes is.
pub fn read(bytes: &[u8], reading: &Reading) -> Vec<String> {
    let mut own = Vec::new();
    let start = (0..reading.used).rev().find(|&at| starts(bytes, at));
    let length = start.map_or(0, |start| reading.used - start);
    if reading.answer == 0 && length == LONGEST_PACKET {
        own.push(LONGEST.to_owned());
    }
    if reading.answer == 4 && length > LONGEST_PACKET {
        own.push(TOO_LONG.to_owned());
    }
    if let Some(Command::LlChannelConfig(config)) = reading.command {
        own.push(if reading.charge == 0 { BALANCED } else { NOT_BALANCED }.to_owned());
        own.push(points(config.pulse.number, "read"));
    }
    own
}

/// What a writing of this command is.
pub fn written(command: &Command, written: &Written) -> Vec<String> {
    match (command, written) {
        (Command::LlChannelConfig(config), Ok(_)) => vec![points(config.pulse.number, "written")],
        (_, Err(4)) if command.charge() != 0 => vec![NOT_WRITTEN.to_owned()],
        _ => vec![],
    }
}
