//! The pulses that are read and written.

use independent::rehamove3::{ChannelConfig, Command, Point, Pulse};

/// An Ll_channel_config, with the packet number that it is sent with.
pub struct Sent {
    pub what: &'static str,
    pub packet: u8,
    pub config: ChannelConfig,
}

impl Sent {
    pub fn command(&self) -> Command {
        Command::LlChannelConfig(self.config)
    }
}

/// Of one point, of three, of the most; and with as many bytes stuffed as can be.
pub fn sent() -> [Sent; 4] {
    let pulse = |points: &[(u16, u16)]| {
        let point = |&(duration, code): &(u16, u16)| Point { duration, code };
        Pulse::of_points(&points.iter().map(point).collect::<Vec<_>>())
    };
    let executed = |what, points: &[(u16, u16)]| {
        let config = ChannelConfig { execution: 1, channel: 2, pulse: pulse(points) };
        Sent { what, packet: 1, config }
    };
    // No byte of these is stuffed.
    let three = [(200, 340), (100, 300), (200, 260)];
    let sixteen = [(200, 340), (100, 300), (200, 260), (1000, 300)].repeat(4);
    let not_executed = ChannelConfig { execution: 0, channel: 0, pulse: pulse(&stuffed()) };
    [
        executed("Ll_channel_config, 1 point", &three[1..2]),
        executed("Ll_channel_config, 3 points", &three),
        executed("Ll_channel_config, 16 points", &sixteen),
        Sent {
            what: "Ll_channel_config, 16 points, 48 bytes stuffed",
            packet: 60,
            config: not_executed,
        },
    ]
}

/// Three bytes of each of the first 14 points are stuffed, two of each of the others: no pulse without a
/// net charge has more.
fn stuffed() -> Vec<(u16, u16)> {
    let mut points = vec![(248, 124); 5];
    points.extend([(255, 60); 9]);
    points.extend([(184, 124), (3853, 508)]);
    points
}
