//! Packets of the RehaMove3.

pub mod agree;
pub mod alike;
mod own;

use super::device::{Device, Seen, SeenPacket, Sent};
use super::Counts;
use crate::met::Met;
use crate::pick::once_in;
use crate::random_pulses::{command, packet};
use independent::rehamove3::{compose, enclose, Command};
use rand::rngs::SmallRng;
use rand::Rng;
use yarrowbell::rehamove3::{LONGEST_DATA, LONGEST_PACKET, LONGEST_WRITTEN};

/// The longest output that is lent.
pub const ROOM: usize = 1_200;

/// The device.
pub struct RehaMove3;

impl Device for RehaMove3 {
    const NAME: &'static str = "RehaMove3";
    const TRIAL: &'static str = "packets of the RehaMove3";
    const COMMANDS: &'static [(u16, &'static str)] = &[
        (0, "Ll_init"),
        (1, "Ll_init_ack"),
        (2, "Ll_channel_config"),
        (3, "Ll_channel_config_ack"),
        (4, "Ll_stop"),
        (5, "Ll_stop_ack"),
    ];

    const ROOM: usize = ROOM;
    const LONGEST_DATA: usize = LONGEST_DATA;
    const LONGEST_CARRIED: usize = 65;
    const LONGEST_WRITTEN: usize = LONGEST_WRITTEN;
    const TOO_LONG: usize = LONGEST_PACKET + 100;

    const CHECKSUM: &'static [usize] = &[6, 8];
    const COVERED: usize = 9;

    fn counts(met: &mut Met) -> &mut Counts {
        &mut met.rehamove3
    }

    fn own() -> Vec<String> {
        own::all()
    }

    fn read(bytes: &[u8], room: usize) -> Result<Seen, String> {
        let reading = agree::read(bytes, room)?;
        let own = own::read(bytes, &reading);
        let packet = reading.command.map(|command| SeenPacket {
            command: command.number(),
            whole: compose(reading.packet, command.number(), &reading.data),
            data: reading.data,
        });
        Ok(Seen { answer: reading.answer, used: reading.used, packet, own })
    }

    /// The pulse of a command is weighed too.
    fn write(rng: &mut SmallRng, room: usize) -> Result<Sent, String> {
        let packet = if once_in(rng, 20) { rng.gen() } else { rng.gen_range(0..64) };
        let command =
            if once_in(rng, 20) { Command::Other { number: rng.gen() } } else { command(rng) };
        let written = agree::write(packet, command, room)?;
        if let Command::LlChannelConfig(config) = command {
            agree::charge(config.pulse)?;
        }
        let own = own::written(&command, &written);
        let carried = !matches!(command, Command::Other { .. });
        Ok(Sent { command: carried.then(|| command.number()), written, own })
    }

    fn packet(rng: &mut SmallRng) -> Vec<u8> {
        packet(rng)
    }

    fn with_data(rng: &mut SmallRng, data: &[u8]) -> Vec<u8> {
        compose(rng.gen_range(0..64), rng.gen_range(0..1_024), data)
    }

    fn enclose(covered: &[u8]) -> Vec<u8> {
        enclose(covered)
    }
}
