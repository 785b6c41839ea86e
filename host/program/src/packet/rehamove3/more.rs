//! A pulse for scripts.

use super::amounts;
use super::read::pulse;
use serde::Serialize;
use yarrowbell::rehamove3::{self, Packet};

/// The keys: all null unless the library read an Ll_channel_config.
#[derive(Serialize)]
pub struct More {
    points: Option<Vec<Point>>,
    /// The net charge in half milliamp microseconds.
    charge: Option<i32>,
    charge_words: Option<String>,
}

#[derive(Serialize)]
struct Point {
    duration_us: u16,
    current_ma: f32,
}

impl More {
    pub fn of(read: Option<&Packet>) -> More {
        let pulse = read.and_then(pulse);
        let charge = read.filter(|_| pulse.is_some()).map(|packet| packet.charge);
        More {
            points: pulse.map(|pulse| pulse.points().iter().map(Point::of).collect()),
            charge,
            charge_words: charge.map(amounts::charge),
        }
    }
}

impl Point {
    fn of(point: &rehamove3::Point) -> Point {
        Point { duration_us: point.duration, current_ma: f32::from(point.current) / 2.0 }
    }
}
