//! `yarrowbell packet write rehamove3 ll-channel-config`

use crate::packet::field::Field as _;
use crate::packet::rehamove3::amounts::milliamps;
use crate::packet::rehamove3::field::{coded, Field};
use crate::packet::rehamove3::point;
use crate::packet::{argument, named};
use crate::write::argument::Argument;
use clap::{ArgGroup, Args};
use std::path::PathBuf;
use yarrowbell::rehamove3::{ChannelConfig, Command, Point, Pulse};

/// Write an Ll_channel_config: one pulse, point by point
#[derive(Args)]
#[command(group(ArgGroup::new("execution").required(true).args(["execute", "no_stimulation"])))]
#[command(after_help = "\
A point is a current that flows for a while: DURATION is 0 to 4095 in µs, MILLIAMPS -130 to 130 in
steps of 0.5. A pulse has 1 to 16 points, in the order in which they flow. The sum of duration times
current over them is its net charge, and only a pulse without any is written.

Examples, 20 mA one way, a pause and 20 mA the other way; 20 mA, and an eighth of it eight times as
long:
  yarrowbell packet write rehamove3 ll-channel-config --channel red --execute --packet 1 \\
    --point 250:20 --point 100:0 --point 250:-20
  yarrowbell packet write rehamove3 ll-channel-config --channel 0 --no-stimulation \\
    --point 250:20 --point 2000:-2.5 --plot pulse.svg")]
pub struct Words {
    /// Channel selection: red, blue, black, white, or 0 to 3
    #[arg(long, value_name = "C")]
    #[arg(value_parser = named::of::<u8>(Field::ChannelSelection), allow_negative_numbers = true)]
    channel: u8,

    /// Execution Stimulation 1: the stimulation will be executed
    #[arg(long)]
    execute: bool,

    /// Execution Stimulation 0: no stimulation
    #[arg(long)]
    no_stimulation: bool,

    /// A point of the pulse, as 250:20 or 250:-20.5; once for each
    #[arg(long = "point", value_name = point::SPELLING, required = true)]
    #[arg(value_parser = point::parsed, allow_hyphen_values = true)]
    points: Vec<Point>,

    /// Draw the pulse, also one that is refused for its net charge
    #[arg(long, value_name = "OUT.svg")]
    pub plot: Option<PathBuf>,
}

impl Words {
    /// None if there are more points than a pulse can have.
    pub fn command(&self) -> Option<Command> {
        let (execution, channel) = (self.execute, self.channel);
        let pulse = Pulse::new(&self.points)?;
        Some(Command::LlChannelConfig(ChannelConfig { execution, channel, pulse }))
    }

    pub fn points(&self) -> &[Point] {
        &self.points
    }

    /// The channel, the number of points, and then the two numbers of each.
    pub fn arguments(&self) -> Vec<Argument> {
        let count = self.points.len();
        let number = Argument {
            name: "--point".to_owned(),
            given: format!("a number of {count} points"),
            broken: i32::try_from(count).ok().and_then(|count| Field::NumberOfPoints.broken(count)),
        };
        let channel = argument::of("--channel", Field::ChannelSelection, self.channel);
        let points = (1..).zip(&self.points).flat_map(|(place, point)| of_point(place, *point));
        [channel, number].into_iter().chain(points).collect()
    }
}

fn of_point(place: usize, Point { duration, current }: Point) -> [Argument; 2] {
    let argument = |given, broken| Argument { name: format!("--point {place}"), given, broken };
    [
        argument(format!("the duration {duration} µs"), Field::Duration.broken(duration.into())),
        argument(
            format!("the current {}", milliamps(current.into())),
            Field::Current.broken(coded(current)),
        ),
    ]
}
