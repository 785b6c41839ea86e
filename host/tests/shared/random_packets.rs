//! Random commands of ScienceMode2 and their packets.

use super::random_bytes::{byte, bytes, edge_or};
use independent::rehastim2::{compose, ChannelList, Command};
use rand::rngs::SmallRng;
use rand::Rng;

/// A command that is carried, with any values; most of them are good.
pub fn command(rng: &mut SmallRng) -> Command {
    let result = if rng.gen_ratio(1, 10) { rng.gen() } else { rng.gen_range(-8..=0) };
    match rng.gen_range(0..8) {
        0 => Command::Init { version: byte(rng, 5) },
        1 => Command::InitAck { result },
        2 => Command::UnknownCommand { echo: byte(rng, 5) },
        3 => Command::Watchdog,
        4 => Command::GetStimulationMode,
        5 => {
            let with = result == 0 || rng.gen_ratio(1, 10);
            Command::GetStimulationModeAck {
                result,
                mode: if with { rng.gen_range(0..=3) } else { 0 },
            }
        }
        6 => Command::InitChannelListMode(channel_list(rng)),
        _ => Command::InitChannelListModeAck { result },
    }
}

fn channel_list(rng: &mut SmallRng) -> ChannelList {
    ChannelList {
        low_frequency_factor: edge_or(rng, &[0, 7, 8, 255], 0..=7) as u8,
        active_channels: byte(rng, 5),
        active_low_frequency_channels: byte(rng, 5),
        inter_pulse_interval: byte(rng, 5),
        main_stimulation_interval: edge_or(
            rng,
            &[0, 0x0F, 0xF0, 0x81, 0x0781, 2047, 2048, 2049, 0xF00F, 0xFFFF],
            0..=2048,
        ),
        channel_execution: edge_or(rng, &[2, 255], 0..=1) as u8,
    }
}

/// A whole packet: of a command that is carried, or of any number with any data.
pub fn packet(rng: &mut SmallRng) -> Vec<u8> {
    let (packet, command) = (byte(rng, 10), command(rng));
    if rng.gen_ratio(2, 3) {
        return compose(packet, command.number(), &command.data());
    }
    let number = if rng.gen() { byte(rng, 10) } else { command.number() };
    let longest = [2, 8, 62][rng.gen_range(0..3)];
    compose(packet, number, &bytes(rng, longest))
}
