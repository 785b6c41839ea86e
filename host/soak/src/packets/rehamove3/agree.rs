//! One packet read or written, or one pulse weighed: by the exports, by what a host program uses of
//! them, and by the independent codec. All of them report the same, and leave the same in an output and
//! around it.

use super::alike;
use crate::failure::same;
use crate::output::Output;
use crate::packets::{known, Written};
use independent::rehamove3::{self as independently, Command, Pulse, Reading};
use yarrowbell::calls::rehamove3 as calls;
use yarrowbell::raw::rehamove3::{
    ReadConfig, ReadElectrode, ReadEmpty, ReadPacket, ReadResult, ReadVoltage, Weighed,
};
use yarrowbell::raw::Wrote;
use yarrowbell::rehamove3::{self, NotWritten};

/// Reads by every export, into an output of `room` bytes, and hands back what all of them say.
pub fn read(bytes: &[u8], room: usize) -> Result<Reading, String> {
    let expected = independently::read(bytes, room);
    let all = alike::report(&expected);
    let ReadPacket { used, charge, command, size, answer, packet, .. } = all;
    let of = |number, value: u8| if command == number { value } else { 0 };
    let told = |what: &str| format!("{what} on {bytes:02X?}, room {room}");
    let output = Output { room, first: &expected.data, told };

    for other in [false, true] {
        output.same("read", other, all, |out| calls::read(bytes, out))?;
    }

    let voltage = all.voltage.into();
    let init = ReadVoltage { used, answer, packet, command, size, voltage };
    output.same("read_ll_init", false, init, |out| calls::read_ll_init(bytes, out))?;

    let with_result = |result: u8| {
        let result = result.into();
        ReadResult { used, answer, packet, command, size, result }
    };
    let ack = with_result(of(1, all.result));
    output.same("read_ll_init_ack", true, ack, |out| calls::read_ll_init_ack(bytes, out))?;

    let ReadPacket { execution, channel, points, .. } = all;
    let config = ReadConfig {
        used,
        charge,
        command,
        size,
        answer,
        packet,
        execution,
        channel,
        number: all.number.into(),
        points,
    };
    let call = |out: &mut [u8]| calls::read_ll_channel_config(bytes, out);
    output.same("read_ll_channel_config", false, config, call)?;

    let (result, electrode) = (of(3, all.result), all.electrode);
    let ack = ReadElectrode { used, answer, packet, command, size, result, electrode };
    let call = |out: &mut [u8]| calls::read_ll_channel_config_ack(bytes, out);
    output.same("read_ll_channel_config_ack", true, ack, call)?;

    let stop = ReadEmpty { used, answer: answer.into(), packet: packet.into(), command, size };
    output.same("read_ll_stop", false, stop, |out| calls::read_ll_stop(bytes, out))?;

    let ack = with_result(of(5, all.result));
    output.same("read_ll_stop_ack", true, ack, |out| calls::read_ll_stop_ack(bytes, out))?;

    let wrapped = match expected.command {
        Some(command) => Ok(rehamove3::Packet {
            number: expected.packet,
            command: alike::command(&command).expect("a command that is read has good values"),
            size: expected.data.len(),
            used,
            charge,
        }),
        None => Err((known(answer), used)),
    };
    output.same("rehamove3::read", false, wrapped, |out| {
        rehamove3::read(bytes, out).map_err(|why| (why.answer(), why.used()))
    })?;
    Ok(expected)
}

/// Writes by the command's export, into an output of `room` bytes, and hands back what all of them say.
pub fn write(packet: u8, command: Command, room: usize) -> Result<Written, String> {
    let expected = match independently::write(packet, command) {
        None => Err(4),
        Some(bytes) if bytes.len() > room => Err(16),
        Some(bytes) => Ok(bytes),
    };
    let told = |what: &str| format!("{what} on packet number {packet}, {command:?}, room {room}");
    let output = Output { room, first: expected.as_deref().unwrap_or_default(), told };

    let report = match &expected {
        Ok(bytes) => Wrote { answer: 0, used: bytes.len() as u8 },
        Err(answer) => Wrote { answer: *answer, used: 0 },
    };
    let call = |out: &mut [u8]| alike::write(packet, command, out).unwrap_or(report);
    output.same("the export", true, report, call)?;

    if let Some(wrapped) = alike::command(&command) {
        let report = match &expected {
            Ok(bytes) => Ok(bytes.len()),
            Err(16) => Err(NotWritten::OutputTooShort),
            Err(_) => Err(match command.charge() {
                0 => NotWritten::NotGood,
                charge => NotWritten::NotBalanced { charge },
            }),
        };
        let call = |out: &mut [u8]| rehamove3::write(packet, &wrapped, out);
        output.same("rehamove3::write", false, report, call)?;
    }
    Ok(expected)
}

/// Weighs by the export, and hands back what all say: the net charge, or none of a pulse that is not
/// good.
pub fn charge(pulse: Pulse) -> Result<Option<i32>, String> {
    let expected = pulse.charge();
    let told = |name: &str| format!("the report of {name} on {pulse:?}");

    let report = match expected {
        Some(charge) => Weighed { charge, answer: 0 },
        None => Weighed { charge: 0, answer: 4 },
    };
    let found = calls::charge(alike::raw_pulse(pulse));
    same(&found, &report, || told("the export"))?;

    if let Some(wrapped) = alike::pulse(&pulse) {
        same(&wrapped.charge(), &expected, || told("Pulse::charge"))?;
    }
    Ok(expected)
}
