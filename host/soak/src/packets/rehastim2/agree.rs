//! One packet read or written: by the exports, by what a host program uses of them, and by the
//! independent codec. All of them report the same, and leave the same in an output and around it.

use super::alike;
use crate::output::Output;
use crate::packets::{known, Written};
use independent::rehastim2::{self as independently, Command, Reading};
use yarrowbell::calls::rehastim2 as calls;
use yarrowbell::raw::rehastim2::{
    ReadEcho, ReadEmpty, ReadList, ReadMode, ReadPacket, ReadResult, ReadVersion,
};
use yarrowbell::raw::Wrote;
use yarrowbell::rehastim2::{self, NotWritten};

/// Reads by every export, into an output of `room` bytes, and hands back what all of them say.
pub fn read(bytes: &[u8], room: usize) -> Result<Reading, String> {
    let expected = independently::read(bytes, room);
    let all = alike::report(&expected);
    let ReadPacket { used, answer, packet, command, size, .. } = all;
    let of = |number, value: i8| if command == number { value } else { 0 };
    let told = |what: &str| format!("{what} on {bytes:02X?}, room {room}");
    let output = Output { room, first: &expected.data, told };

    for other in [false, true] {
        output.same("read", other, all, |out| calls::read(bytes, out))?;
    }

    let version = all.version.into();
    let init = ReadVersion { used, answer, packet, command, size, version };
    output.same("read_init", false, init, |out| calls::read_init(bytes, out))?;

    let with_result = |result| ReadResult {
        used,
        answer: answer.into(),
        packet: packet.into(),
        command: command.into(),
        size,
        result,
    };
    let ack = with_result(of(2, all.result));
    output.same("read_init_ack", true, ack, |out| calls::read_init_ack(bytes, out))?;

    let echo = all.echo.into();
    let unknown = ReadEcho { used, answer, packet, command, size, echo };
    let call = |out: &mut [u8]| calls::read_unknown_command(bytes, out);
    output.same("read_unknown_command", false, unknown, call)?;

    let empty = ReadEmpty {
        used,
        answer: answer.into(),
        packet: packet.into(),
        command: command.into(),
        size: size.into(),
    };
    output.same("read_watchdog", true, empty, |out| calls::read_watchdog(bytes, out))?;
    let call = |out: &mut [u8]| calls::read_get_stimulation_mode(bytes, out);
    output.same("read_get_stimulation_mode", false, empty, call)?;

    let mode = ReadMode {
        used,
        answer,
        packet,
        command: command.into(),
        size: size.into(),
        result: of(11, all.result),
        mode: all.mode,
    };
    let call = |out: &mut [u8]| calls::read_get_stimulation_mode_ack(bytes, out);
    output.same("read_get_stimulation_mode_ack", true, mode, call)?;

    let ReadPacket { factor, active, lf, inter, main, execution, .. } = all;
    let (main, execution) = (main.into(), execution.into());
    let list = ReadList {
        used,
        answer,
        packet,
        command,
        size,
        factor,
        active,
        lf,
        inter,
        main,
        execution,
    };
    let call = |out: &mut [u8]| calls::read_init_channel_list_mode(bytes, out);
    output.same("read_init_channel_list_mode", false, list, call)?;

    let ack = with_result(of(31, all.result));
    let call = |out: &mut [u8]| calls::read_init_channel_list_mode_ack(bytes, out);
    output.same("read_init_channel_list_mode_ack", true, ack, call)?;

    let wrapped = match expected.command {
        Some(command) => Ok(rehastim2::Packet {
            number: expected.packet,
            command: alike::command(&command),
            size: expected.data.len(),
            used,
        }),
        None => Err((known(answer), used)),
    };
    output.same("rehastim2::read", false, wrapped, |out| {
        rehastim2::read(bytes, out).map_err(|why| (why.answer(), why.used()))
    })?;
    Ok(expected)
}

/// Writes by the command's export, into an output of `room` bytes, and hands back what all of them say.
pub fn write(packet: u8, command: Command, room: usize) -> Result<Written, String> {
    let expected = match independently::write(packet, command) {
        None => Err(4),
        Some(bytes) if bytes.len() > room => Err(16),
        Some(bytes) => Ok(bytes),
    };
    let told = |what: &str| format!("{what} on packet number {packet}, {command:?}, room {room}");
    let output = Output { room, first: expected.as_deref().unwrap_or_default(), told };

    let report = match &expected {
        Ok(bytes) => Wrote { answer: 0, used: bytes.len() as u8 },
        Err(answer) => Wrote { answer: *answer, used: 0 },
    };
    let call = |out: &mut [u8]| alike::write(packet, command, out).unwrap_or(report);
    output.same("the export", true, report, call)?;

    let wrapped = match &expected {
        Ok(bytes) => Ok(bytes.len()),
        Err(answer) => Err(known(*answer)),
    };
    output.same("rehastim2::write", false, wrapped, |out| {
        let command = alike::command(&command);
        rehastim2::write(packet, &command, out).map_err(NotWritten::answer)
    })?;
    Ok(expected)
}
