//! Packets written.

use super::{RehaStim2, LIST};
use crate::meter::Meter;
use crate::packets::write::measured;
use crate::table::Row;
use independent::rehastim2::{ChannelList, Command};
use soak::packets::rehastim2::alike::channel_list;
use std::hint::black_box;
use yarrowbell::calls::rehastim2 as calls;

/// With a packet number that is stuffed too, as many of its bytes are stuffed as can be.
const STUFFED: ChannelList = ChannelList {
    active_channels: 0x81,
    active_low_frequency_channels: 0x0F,
    inter_pulse_interval: 0xF0,
    main_stimulation_interval: 0x0781,
    ..LIST
};

pub fn rows(meter: &mut Meter) -> Vec<Row> {
    let rows = [
        measured::<RehaStim2>(meter, "Watchdog", 1, Command::Watchdog, calls::write_watchdog),
        init(meter),
        mode(meter),
        list(meter, "InitChannelListMode", 1, LIST),
        list(meter, "InitChannelListMode, 5 bytes stuffed", 0xF0, STUFFED),
        list_ack(meter),
    ];
    rows.into_iter().flatten().collect()
}

fn init(meter: &mut Meter) -> Option<Row> {
    const VERSION: u8 = 1;
    measured::<RehaStim2>(meter, "Init", 1, Command::Init { version: VERSION }, |packet, out| {
        calls::write_init(packet, black_box(VERSION), out)
    })
}

fn mode(meter: &mut Meter) -> Option<Row> {
    const RESULT: i8 = 0;
    const MODE: u8 = 2;
    let command = Command::GetStimulationModeAck { result: RESULT, mode: MODE };
    measured::<RehaStim2>(meter, "GetStimulationModeAck", 1, command, |packet, out| {
        calls::write_get_stimulation_mode_ack(packet, black_box(RESULT), black_box(MODE), out)
    })
}

fn list(meter: &mut Meter, what: &str, packet: u8, list: ChannelList) -> Option<Row> {
    let library = channel_list(&list);
    measured::<RehaStim2>(meter, what, packet, Command::InitChannelListMode(list), |packet, out| {
        calls::write_init_channel_list_mode(packet, *black_box(&library), out)
    })
}

fn list_ack(meter: &mut Meter) -> Option<Row> {
    const RESULT: i8 = -2;
    let command = Command::InitChannelListModeAck { result: RESULT };
    measured::<RehaStim2>(meter, "InitChannelListModeAck", 1, command, |packet, out| {
        calls::write_init_channel_list_mode_ack(packet, black_box(RESULT), out)
    })
}
