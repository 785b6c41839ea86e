//! `packet read rehamove3 --json` and `packet write rehamove3 --json`, compared with the independent
//! codec.

#[path = "../../../tests/shared/random_pulses.rs"]
mod random_pulses;

use crate::objects::has;
use crate::packet_objects::{self, written, Carried, Read};
use crate::pulse_writings::spelt;
use crate::pulses::{CHARGED, STOP};
use crate::random_bytes;
use crate::run;
use crate::seeded::seeded;
use independent::rehamove3::{read, write, ChannelConfig, Command, Pulse};
use rand::Rng;
use random_pulses::{command, packet};
use serde_json::{json, Value};

/// The keys stand in this order.
#[test]
fn a_pulse() {
    run::prints(
        &format!("packet read rehamove3 41 {CHARGED} --json"),
        &[&format!(
            "{{\"at\":1,\"bytes\":\"{CHARGED}\",\"garbage\":1,\"used\":27,\"answer\":0,\
             \"answer_words\":\"good packet\",\"packet\":1,\"command\":2,\
             \"name\":\"Ll_channel_config\",\"data\":\"82 0F A5 50 00 06 44 B0 00 0C 84 10 00\",\
             \"fields\":{{\"execution_stimulation\":1,\"channel_selection\":0,\
             \"number_of_points\":3}},\"fields_words\":{{\"execution_stimulation\":\"1: Stimulation \
             will be executed\",\"channel_selection\":\"0: red\",\"number_of_points\":\"3: coded \
             2\"}},\"checksum\":\"EB E2\",\"checksum_should_be\":\"EB E2\",\"length\":26,\
             \"length_should_be\":26,\"reason\":null,\"place\":null,\
             \"points\":[{{\"duration_us\":250,\"current_ma\":20.0}},{{\"duration_us\":100,\
             \"current_ma\":0.0}},{{\"duration_us\":200,\"current_ma\":-20.0}}],\"charge\":2000,\
             \"charge_words\":\"2,000 half mA µs = 1,000 nC\"}}"
        )],
    );
}

/// A command without a pulse has no charge, and neither has a packet that is refused.
#[test]
fn no_pulse() {
    let nothing = json!({"points": null, "charge": null, "charge_words": null});
    let line = format!("packet read rehamove3 {STOP} --json");
    has(&line, json!({"answer": 0, "packet": 2, "command": 4, "name": "Ll_stop", "fields": {}}));
    has(&line, nothing.clone());
    let line = "packet read rehamove3 F0 81 55 81 47 81 9F 81 09 04 02 80 81 5A A9 64 00 0F --json";
    has(line, json!({"answer": 4, "packet": 0, "command": 0, "name": null, "data": null}));
    has(line, json!({"place": 14, "checksum": "CA 5C", "length": 18, "fields": {}}));
    has(line, nothing.clone());
    let line = "packet read rehamove3 F0 81 55 81 5B 81 98 81 99 1F FF 81 A5 0F --json";
    has(line, json!({"packet": 7, "command": 1023, "name": null, "data": "F0", "fields": {}}));
    has(line, nothing.clone());
    has("packet write rehamove3 ll-stop --packet 2 --json", nothing);
}

#[test]
fn any_bytes() {
    packet_objects::any_bytes("rehamove3", 28_000..28_300, packet, |bytes| {
        let read = read(bytes, 1_188);
        let command = read.command.map(|command| carried(command, read.data));
        Read { answer: read.answer, used: read.used, packet: read.packet, command }
    });
}

fn carried(command: Command, data: Vec<u8>) -> Carried {
    let (fields, points, charge) = match command {
        Command::LlChannelConfig(config) => {
            (fields(command), points(&config.pulse), json!(command.charge()))
        }
        _ => (fields(command), Value::Null, Value::Null),
    };
    let keys = json!({"fields": fields, "points": points, "charge": charge});
    Carried { number: command.number(), data, keys }
}

/// The fields of a command by the paper's names.
fn fields(command: Command) -> Value {
    match command {
        Command::LlInit { voltage } => json!({"high_voltage": voltage}),
        Command::LlInitAck { result } | Command::LlStopAck { result } => json!({"result": result}),
        Command::LlChannelConfig(ChannelConfig { execution, channel, pulse }) => json!({
            "execution_stimulation": execution, "channel_selection": channel,
            "number_of_points": pulse.number,
        }),
        Command::LlChannelConfigAck { result, electrode } => {
            json!({"result": result, "electrode_error_channel": electrode})
        }
        Command::LlStop | Command::Other { .. } => json!({}),
    }
}

fn points(pulse: &Pulse) -> Value {
    let points = pulse.used().iter().map(|point| {
        let milliamps = (f64::from(point.code) - 300.0) / 2.0;
        json!({"duration_us": point.duration, "current_ma": milliamps})
    });
    points.collect()
}

/// A command of any values is written, or refused, as the independent codec says.
#[test]
fn any_command() {
    let (mut met, mut charged) = ([0; 2], 0);
    seeded(29_000..29_600, |rng| {
        let number = if rng.gen_ratio(1, 10) { rng.gen() } else { rng.gen_range(0..64) };
        let Some(command) = spellable(command(rng)) else { return };
        let packet = write(number, command);
        let packet = packet.map(|bytes| (number, bytes, carried(command, command.data())));
        let refusals =
            ["(source 002, section ", "(document 02, request 13)", "; point ", " alone "];
        let good = written(&spelt(number, command), packet, &refusals);
        met[usize::from(good)] += 1;
        charged += usize::from(command.charge() != 0);
    });
    assert!(met[0] > 100 && met[1] > 100 && charged > 50, "{met:?} {charged} show little");
}

/// What can be said in words of this: a pulse of the points that it has, if it has any.
fn spellable(command: Command) -> Option<Command> {
    let Command::LlChannelConfig(config) = command else { return Some(command) };
    let pulse = Pulse::of_points(config.pulse.used());
    let execution = config.execution.min(1);
    let spelt = Command::LlChannelConfig(ChannelConfig { execution, pulse, ..config });
    (pulse.number != 0).then_some(spelt)
}
