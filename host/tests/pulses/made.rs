//! Commands made from few values.

use independent::rehamove3::{ChannelConfig, Command, Point, Pulse};

/// A pulse of these durations and codes.
pub fn pulse(points: &[(u16, u16)]) -> Pulse {
    let point = |&(duration, code): &(u16, u16)| Point { duration, code };
    Pulse::of_points(&points.iter().map(point).collect::<Vec<_>>())
}

/// An Ll_channel_config that executes a pulse on channel 0.
pub fn config(pulse: Pulse) -> Command {
    Command::LlChannelConfig(ChannelConfig { execution: 1, channel: 0, pulse })
}
