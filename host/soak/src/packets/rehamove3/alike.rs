//! The independent codec's packets in the library's records and calls.

use independent::rehamove3::{self as independently, Command, Reading};
use yarrowbell::calls::rehamove3 as calls;
use yarrowbell::raw::rehamove3::{self as raw, ReadPacket};
use yarrowbell::raw::Wrote;
use yarrowbell::rehamove3::{self, ChannelConfig, HighVoltage, Outcome, Point, Pulse};

/// What the export for any command reports.
pub fn report(reading: &Reading) -> ReadPacket {
    let all = ReadPacket {
        used: reading.used,
        charge: reading.charge,
        size: reading.data.len() as u16,
        answer: reading.answer,
        packet: reading.packet,
        ..ReadPacket::default()
    };
    reading.command.map_or(all, |command| with_command(all, command))
}

/// The report of a packet with this command, given the report without it.
pub fn with_command(mut all: ReadPacket, command: Command) -> ReadPacket {
    all.command = command.number();
    match command {
        Command::LlInit { voltage } => all.voltage = voltage,
        Command::LlInitAck { result } | Command::LlStopAck { result } => all.result = result,
        Command::LlChannelConfig(config) => {
            let raw::Pulse { number, points } = raw_pulse(config.pulse);
            (all.execution, all.channel) = (config.execution, config.channel);
            (all.number, all.points) = (number as u8, points);
        }
        Command::LlChannelConfigAck { result, electrode } => {
            (all.result, all.electrode) = (result, electrode);
        }
        Command::LlStop | Command::Other { .. } => {}
    }
    all
}

pub fn raw_pulse(pulse: independently::Pulse) -> raw::Pulse {
    let independently::Pulse { number, points } = pulse;
    let point = |independently::Point { duration, code }: independently::Point| raw::Point {
        duration,
        code,
    };
    raw::Pulse { number, points: points.map(point) }
}

/// The pulse as a host program has it; none if it has a wrong number of points, or others behind them.
pub fn pulse(pulse: &independently::Pulse) -> Option<Pulse> {
    let point = |point: &independently::Point| Point {
        duration: point.duration,
        current: point.code.wrapping_sub(300) as i16,
    };
    let used = pulse.used();
    let points: Vec<Point> = used.iter().map(point).collect();
    let whole = independently::Pulse::of_points(used) == *pulse;
    Pulse::new(&points).filter(|_| whole)
}

/// The command as a host program has it; none if it has no such value.
pub fn command(command: &Command) -> Option<rehamove3::Command> {
    Some(match *command {
        Command::LlInit { voltage } => rehamove3::Command::LlInit { voltage: HighVoltage(voltage) },
        Command::LlInitAck { result } => rehamove3::Command::LlInitAck { result: Outcome(result) },
        Command::LlChannelConfig(config) => {
            let execution = match config.execution {
                0 => false,
                1 => true,
                _ => return None,
            };
            let (channel, pulse) = (config.channel, pulse(&config.pulse)?);
            rehamove3::Command::LlChannelConfig(ChannelConfig { execution, channel, pulse })
        }
        Command::LlChannelConfigAck { result, electrode } => {
            rehamove3::Command::LlChannelConfigAck { result: Outcome(result), electrode }
        }
        Command::LlStop => rehamove3::Command::LlStop,
        Command::LlStopAck { result } => rehamove3::Command::LlStopAck { result: Outcome(result) },
        Command::Other { number } => rehamove3::Command::Other { number },
    })
}

/// Writes by the command's export; a command that is not carried has none, and changes nothing here.
pub fn write(packet: u8, command: Command, out: &mut [u8]) -> Option<Wrote> {
    Some(match command {
        Command::LlInit { voltage } => calls::write_ll_init(packet, voltage, out),
        Command::LlInitAck { result } => calls::write_ll_init_ack(packet, result, out),
        Command::LlChannelConfig(independently::ChannelConfig { execution, channel, pulse }) => {
            calls::write_ll_channel_config(packet, execution, channel, raw_pulse(pulse), out)
        }
        Command::LlChannelConfigAck { result, electrode } => {
            calls::write_ll_channel_config_ack(packet, result, electrode, out)
        }
        Command::LlStop => calls::write_ll_stop(packet, out),
        Command::LlStopAck { result } => calls::write_ll_stop_ack(packet, result, out),
        Command::Other { .. } => return None,
    })
}
