//! The channels that have a lane.

use super::Panel;
use crate::course::{Decided, What};
use yarrowbell::{Answer, Command};

pub const ALL: std::ops::RangeInclusive<u8> = 1..=8;

/// Those that a command listed in any of the panels, and those of a pulse.
pub fn channels(panels: &[Panel]) -> Vec<u8> {
    let uses = |channel| {
        let mut events = panels.iter().flat_map(|panel| panel.events);
        events.any(|event| is_of(&event.what, channel))
    };
    ALL.filter(|channel| uses(*channel)).collect()
}

fn is_of(what: &What, channel: u8) -> bool {
    match what {
        What::Pulse(pulse) => pulse.channel == channel,
        What::Decided(Decided { bytes, answer: Answer::Done, .. }) => {
            listed(bytes) >> (channel - 1) & 1 == 1
        }
        _ => false,
    }
}

/// The bits of the channels that a frame lists: none if it is no Init.
fn listed(frame: &[u8]) -> u8 {
    match yarrowbell::read(frame, 1).map(|frame| frame.command) {
        Ok(Command::Init(init)) => init.stim,
        _ => 0,
    }
}
