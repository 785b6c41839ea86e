//! Packets read.

use super::pulses::sent;
use super::RehaMove3;
use crate::meter::Meter;
use crate::packets::bytes::{damaged, garbage, unmarked, START};
use crate::packets::read::{self, Case};
use crate::table::Row;
use independent::rehamove3::{compose, Command};
use yarrowbell::rehamove3::LONGEST_DATA;

/// A command that is not carried.
const OTHER: u16 = 60;

pub fn rows(meter: &mut Meter) -> Vec<Row> {
    let cases = [carried(), others(), refused(), read::without_packet()];
    read::rows::<RehaMove3>(meter, cases.into_iter().flatten())
}

fn carried() -> Vec<Case> {
    let commands = [
        ("Ll_init", 1, Command::LlInit { voltage: 6 }),
        ("Ll_init_ack", 1, Command::LlInitAck { result: 0 }),
        ("Ll_channel_config_ack", 1, Command::LlChannelConfigAck { result: 10, electrode: 2 }),
        ("Ll_stop", 1, Command::LlStop),
        ("Ll_stop_ack", 1, Command::LlStopAck { result: 0 }),
    ];
    let pulses = sent().map(|sent| (sent.what, sent.packet, sent.command()));
    let case = |(what, packet, command): (_, _, Command)| {
        let bytes = compose(packet, command.number(), &command.data());
        Case { what, bytes, answer: 0 }
    };
    commands.into_iter().chain(pulses).map(case).collect()
}

/// Data of more and more bytes; as many as can be if all are stuffed; garbage before the packet.
fn others() -> Vec<Case> {
    let stuffed = compose(1, OTHER, &[START; LONGEST_DATA / 2]);
    let behind = [garbage(1_000), other(LONGEST_DATA)].concat();
    let cases = [
        ("other, no data", other(0)),
        ("other, 60 bytes of data", other(60)),
        ("other, 300 bytes of data", other(300)),
        ("other, 1188 bytes of data", other(LONGEST_DATA)),
        ("other, 594 bytes of data, all stuffed", stuffed),
        ("other, 1188 bytes of data, behind 1000 of garbage", behind),
    ];
    cases.map(|(what, bytes)| Case { what, bytes, answer: 0 }).into()
}

/// A wrong checksum, of a packet that is good else and of one that is far too long.
fn refused() -> Vec<Case> {
    let cases = [
        ("wrong checksum, 60 bytes of data", 60),
        ("wrong checksum, 1188 bytes of data", LONGEST_DATA),
        ("wrong checksum, 10000 bytes of data", 10_000),
    ];
    cases.map(|(what, size)| Case { what, bytes: damaged(other(size), 8), answer: 3 }).into()
}

/// Another command with this many bytes of data, none of them stuffed.
fn other(size: usize) -> Vec<u8> {
    compose(1, OTHER, &unmarked(size))
}
