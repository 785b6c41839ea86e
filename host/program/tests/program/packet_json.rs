//! `packet read --json` and `packet write --json`, compared with the independent codec.

#[path = "../../../tests/shared/random_packets.rs"]
mod random_packets;

use crate::objects::has;
use crate::packet_objects::{self, written, Carried, Read};
use crate::packet_writings::spelt;
use crate::random_bytes;
use crate::run;
use crate::seeded::seeded;
use independent::rehastim2::{read, write, ChannelList, Command};
use rand::Rng;
use random_packets::{command, packet};
use serde_json::{json, Value};

/// The keys stand in this order.
#[test]
fn a_good_packet() {
    run::prints(
        "packet read rehastim2 41 F0 81 11 81 51 09 0B 00 02 0F --json",
        &["{\"at\":1,\"bytes\":\"F0 81 11 81 51 09 0B 00 02 0F\",\"garbage\":1,\"used\":11,\
           \"answer\":0,\"answer_words\":\"good packet\",\"packet\":9,\"command\":11,\
           \"name\":\"GetStimulationModeAck\",\"data\":\"00 02\",\"fields\":{\"result\":0,\
           \"stimulation_mode\":2},\"fields_words\":{\"result\":\"0: No error\",\
           \"stimulation_mode\":\"2: Stimulation started\"},\"checksum\":\"44\",\
           \"checksum_should_be\":\"44\",\"length\":4,\"length_should_be\":4,\"reason\":null,\
           \"place\":null}"],
    );
    has(
        "packet read rehastim2 F0 81 64 81 53 07 24 02 00 C8 14 0F --json",
        json!({"command": 36, "name": "SinglePulse", "data": "02 00 C8 14", "fields": {}}),
    );
    has(
        "packet read rehastim2 F0 81 48 81 57 07 C8 0F --json",
        json!({"packet": 7, "command": 200, "name": null, "data": "", "fields": {}}),
    );
}

#[test]
fn refused_packets() {
    let nothing = json!({
        "packet": 0, "command": 0, "name": null, "data": null, "fields": {}, "fields_words": {},
    });
    for (words, keys) in [
        (
            "F0 81 48 81 57 00 04 0F",
            json!({
                "answer": 3, "answer_words": "wrong or missing checksum", "used": 8, "checksum": "1D",
                "checksum_should_be": "1C", "length": 2, "length_should_be": 2, "place": 2,
                "reason": "the checksum is 1D (stuffed 81 48), and 1C (stuffed 81 49) would be right",
            }),
        ),
        (
            "F0 81 0F 81 56 01 02 05 0F",
            json!({
                "answer": 4, "used": 9, "place": 7, "reason":
                "Result 5 is not good: Result is 0 to -8 (source 000, section 5.1)",
            }),
        ),
        (
            "41 F0 81",
            json!({
                "at": 1, "bytes": "F0 81", "garbage": 1, "answer": 1, "used": 0, "place": 1,
                "checksum": null, "checksum_should_be": null, "length": null,
            }),
        ),
        (
            "41",
            json!({"at": null, "bytes": null, "garbage": 1, "answer": 1, "used": 0, "place": null}),
        ),
    ] {
        let line = format!("packet read rehastim2 {words} --json");
        has(&line, keys);
        has(&line, nothing.clone());
    }
}

#[test]
fn any_bytes() {
    packet_objects::any_bytes("rehastim2", 26_000..26_300, packet, |bytes| {
        let read = read(bytes, 60);
        let command = read.command.map(|command| carried(command, read.data));
        Read { answer: read.answer, used: read.used, packet: read.packet, command }
    });
}

fn carried(command: Command, data: Vec<u8>) -> Carried {
    let keys = json!({ "fields": fields(command) });
    Carried { number: command.number().into(), data, keys }
}

/// The fields of a command by the paper's names.
fn fields(command: Command) -> Value {
    match command {
        Command::Init { version } => json!({"version_number": version}),
        Command::InitAck { result } | Command::InitChannelListModeAck { result } => {
            json!({"result": result})
        }
        Command::UnknownCommand { echo } => json!({"echo_command_byte": echo}),
        Command::GetStimulationModeAck { result: 0, mode } => {
            json!({"result": 0, "stimulation_mode": mode})
        }
        Command::GetStimulationModeAck { result, .. } => json!({"result": result}),
        Command::InitChannelListMode(ChannelList {
            low_frequency_factor,
            active_channels,
            active_low_frequency_channels,
            inter_pulse_interval,
            main_stimulation_interval,
            channel_execution,
        }) => json!({
            "low_frequency_factor": low_frequency_factor,
            "active_channels": active_channels,
            "active_low_frequency_channels": active_low_frequency_channels,
            "inter_pulse_interval_coded": inter_pulse_interval,
            "main_stimulation_interval_coded": main_stimulation_interval,
            "channel_execution": channel_execution,
        }),
        Command::Watchdog | Command::GetStimulationMode | Command::Other { .. } => json!({}),
    }
}

/// A command of any values is written, or refused, as the independent codec says.
#[test]
fn any_command() {
    let mut met = [0; 2];
    seeded(27_000..27_400, |rng| {
        let (number, command) = (rng.gen(), command(rng));
        let packet = write(number, command);
        let packet = packet.map(|bytes| (number, bytes, carried(command, command.data())));
        let good = written(&spelt(number, command), packet, &["(source 000, section "]);
        met[usize::from(good)] += 1;
    });
    assert!(met[0] > 20 && met[1] > 100, "{met:?} show little");
}
