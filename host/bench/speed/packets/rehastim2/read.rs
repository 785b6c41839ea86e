//! Packets read.

use super::{RehaStim2, LIST};
use crate::meter::Meter;
use crate::packets::bytes::{damaged, garbage, unmarked, START};
use crate::packets::read::{self, Case};
use crate::table::Row;
use independent::rehastim2::{compose, Command};

/// A command that is not carried.
const OTHER: u8 = 60;

pub fn rows(meter: &mut Meter) -> Vec<Row> {
    let cases = [carried(), others(), refused(), read::without_packet()];
    read::rows::<RehaStim2>(meter, cases.into_iter().flatten())
}

fn carried() -> Vec<Case> {
    let mode = Command::GetStimulationModeAck { result: 0, mode: 2 };
    let commands = [
        ("Watchdog", Command::Watchdog),
        ("Init", Command::Init { version: 1 }),
        ("GetStimulationModeAck", mode),
        ("InitChannelListMode", Command::InitChannelListMode(LIST)),
    ];
    let case = |(what, command): (_, Command)| {
        let bytes = compose(1, command.number(), &command.data());
        Case { what, bytes, answer: 0 }
    };
    commands.map(case).into()
}

/// Data of more and more bytes; all of them stuffed; garbage before the packet.
fn others() -> Vec<Case> {
    let behind = [garbage(1_000), other(60)].concat();
    let cases = [
        ("other, no data", other(0)),
        ("other, 15 bytes of data", other(15)),
        ("other, 30 bytes of data", other(30)),
        ("other, 60 bytes of data", other(60)),
        ("other, 60 bytes of data, all stuffed", compose(1, OTHER, &[START; 60])),
        ("other, 60 bytes of data, behind 1000 of garbage", behind),
    ];
    cases.map(|(what, bytes)| Case { what, bytes, answer: 0 }).into()
}

/// A wrong checksum, of a packet that is good else and of one that is far too long.
fn refused() -> Vec<Case> {
    let cases = [
        ("wrong checksum, 60 bytes of data", 60),
        ("wrong checksum, 1000 bytes of data", 1_000),
        ("wrong checksum, 10000 bytes of data", 10_000),
    ];
    cases.map(|(what, size)| Case { what, bytes: damaged(other(size), 2), answer: 3 }).into()
}

/// Another command with this many bytes of data, none of them stuffed.
fn other(size: usize) -> Vec<u8> {
    compose(1, OTHER, &unmarked(size))
}
