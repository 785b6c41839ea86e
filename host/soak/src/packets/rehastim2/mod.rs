//! Packets of the RehaStim2.

pub mod agree;
pub mod alike;

use super::device::{Device, Seen, SeenPacket, Sent};
use super::Counts;
use crate::met::Met;
use crate::pick::once_in;
use crate::random_bytes::byte;
use crate::random_packets::{command, packet};
use independent::rehastim2::{checksum, compose, Command, Reading};
use rand::rngs::SmallRng;
use rand::Rng;
use yarrowbell::rehastim2::{LONGEST_DATA, LONGEST_WRITTEN};

/// The longest output that is lent.
pub const ROOM: usize = 64;

/// The device.
pub struct RehaStim2;

impl Device for RehaStim2 {
    const NAME: &'static str = "RehaStim2";
    const TRIAL: &'static str = "packets of the RehaStim2";
    const COMMANDS: &'static [(u16, &'static str)] = &[
        (1, "Init"),
        (2, "InitAck"),
        (3, "UnknownCommand"),
        (4, "Watchdog"),
        (10, "GetStimulationMode"),
        (11, "GetStimulationModeAck"),
        (30, "InitChannelListMode"),
        (31, "InitChannelListModeAck"),
    ];

    const ROOM: usize = ROOM;
    const LONGEST_DATA: usize = LONGEST_DATA;
    const LONGEST_CARRIED: usize = 7;
    const LONGEST_WRITTEN: usize = LONGEST_WRITTEN;
    const TOO_LONG: usize = 300;

    const CHECKSUM: &'static [usize] = &[2];
    const COVERED: usize = 5;

    fn counts(met: &mut Met) -> &mut Counts {
        &mut met.rehastim2
    }

    fn own() -> Vec<String> {
        vec![]
    }

    fn read(bytes: &[u8], room: usize) -> Result<Seen, String> {
        let Reading { answer, used, packet, command, data } = agree::read(bytes, room)?;
        let packet = command.map(|command| SeenPacket {
            command: command.number().into(),
            whole: compose(packet, command.number(), &data),
            data,
        });
        Ok(Seen { answer, used, packet, own: vec![] })
    }

    fn write(rng: &mut SmallRng, room: usize) -> Result<Sent, String> {
        let packet = byte(rng, 3);
        let command =
            if once_in(rng, 20) { Command::Other { number: rng.gen() } } else { command(rng) };
        let written = agree::write(packet, command, room)?;
        let carried = !matches!(command, Command::Other { .. });
        let command = carried.then(|| command.number().into());
        Ok(Sent { command, written, own: vec![] })
    }

    fn packet(rng: &mut SmallRng) -> Vec<u8> {
        packet(rng)
    }

    fn with_data(rng: &mut SmallRng, data: &[u8]) -> Vec<u8> {
        compose(byte(rng, 10), byte(rng, 10), data)
    }

    fn enclose(covered: &[u8]) -> Vec<u8> {
        let length = covered.len() as u8;
        let header = [0xF0, 0x81, checksum(covered) ^ 0x55, 0x81, length ^ 0x55];
        [&header, covered, &[0x0F]].concat()
    }
}
