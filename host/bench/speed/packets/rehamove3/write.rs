//! Packets written.

use super::pulses::{sent, Sent};
use super::RehaMove3;
use crate::meter::Meter;
use crate::packets::write::measured;
use crate::table::Row;
use independent::rehamove3::{ChannelConfig, Command};
use soak::packets::rehamove3::alike::raw_pulse;
use std::hint::black_box;
use yarrowbell::calls::rehamove3 as calls;

pub fn rows(meter: &mut Meter) -> Vec<Row> {
    let mut rows = vec![
        init(meter),
        init_ack(meter),
        config_ack(meter),
        measured::<RehaMove3>(meter, "Ll_stop", 1, Command::LlStop, calls::write_ll_stop),
        stop_ack(meter),
    ];
    rows.extend(sent().iter().map(|sent| config(meter, sent)));
    rows.into_iter().flatten().collect()
}

fn init(meter: &mut Meter) -> Option<Row> {
    const VOLTAGE: u8 = 6;
    let command = Command::LlInit { voltage: VOLTAGE };
    measured::<RehaMove3>(meter, "Ll_init", 1, command, |packet, out| {
        calls::write_ll_init(packet, black_box(VOLTAGE), out)
    })
}

fn init_ack(meter: &mut Meter) -> Option<Row> {
    const RESULT: u8 = 0;
    let command = Command::LlInitAck { result: RESULT };
    measured::<RehaMove3>(meter, "Ll_init_ack", 1, command, |packet, out| {
        calls::write_ll_init_ack(packet, black_box(RESULT), out)
    })
}

fn config_ack(meter: &mut Meter) -> Option<Row> {
    const RESULT: u8 = 10;
    const ELECTRODE: u8 = 2;
    let command = Command::LlChannelConfigAck { result: RESULT, electrode: ELECTRODE };
    measured::<RehaMove3>(meter, "Ll_channel_config_ack", 1, command, |packet, out| {
        calls::write_ll_channel_config_ack(packet, black_box(RESULT), black_box(ELECTRODE), out)
    })
}

fn stop_ack(meter: &mut Meter) -> Option<Row> {
    const RESULT: u8 = 0;
    let command = Command::LlStopAck { result: RESULT };
    measured::<RehaMove3>(meter, "Ll_stop_ack", 1, command, |packet, out| {
        calls::write_ll_stop_ack(packet, black_box(RESULT), out)
    })
}

fn config(meter: &mut Meter, sent: &Sent) -> Option<Row> {
    let ChannelConfig { execution, channel, pulse } = sent.config;
    let pulse = raw_pulse(pulse);
    measured::<RehaMove3>(meter, sent.what, sent.packet, sent.command(), |packet, out| {
        let (execution, channel) = (black_box(execution), black_box(channel));
        calls::write_ll_channel_config(packet, execution, channel, *black_box(&pulse), out)
    })
}
