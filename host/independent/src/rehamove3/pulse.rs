//! The points of a pulse: "point definition", section 4.2.

use super::bits::{bytes, fields, Layout};
use nom::combinator::map_opt;
use nom::IResult;

/// "Number of points (1 – 16)".
pub const MOST: usize = 16;

/// Duration, current, reserved.
const POINT: Layout<3> = [12, 10, 10];

/// A duration in microseconds and a current "f(x) = 2x + 300".
#[derive(Clone, Copy, Debug, Default, PartialEq, Eq)]
pub struct Point {
    pub duration: u16,
    pub code: u16,
}

/// The first `number` of these points. The others of a good pulse are zeros.
#[derive(Clone, Copy, Debug, Default, PartialEq, Eq)]
pub struct Pulse {
    pub number: u16,
    pub points: [Point; MOST],
}

impl Point {
    /// "Codes above 600 are refused [..] and by our limit also those outside 40 to 560."
    fn good(&self) -> bool {
        self.duration <= 4095 && (40..=560).contains(&self.code)
    }

    /// In half milliamp microseconds.
    fn charge(&self) -> i32 {
        i32::from(self.duration) * (i32::from(self.code) - 300)
    }

    pub(super) fn of_data(data: &[u8]) -> IResult<&[u8], Point> {
        let point = |[duration, code, reserved]: [_; 3]| {
            (reserved == 0).then_some(Point { duration, code })
        };
        map_opt(fields(POINT), point)(data)
    }

    pub(super) fn data(&self) -> Vec<u8> {
        bytes(POINT, [self.duration, self.code, 0])
    }
}

impl Pulse {
    /// The pulse of these points, 16 at most.
    pub fn of_points(points: &[Point]) -> Pulse {
        let mut pulse = Pulse { number: points.len() as u16, ..Pulse::default() };
        pulse.points[..points.len()].copy_from_slice(points);
        pulse
    }

    /// The points that it has, 16 at most.
    pub fn used(&self) -> &[Point] {
        &self.points[..MOST.min(self.number.into())]
    }

    pub(super) fn good(&self) -> bool {
        let unused = &self.points[self.used().len()..];
        (1..=MOST).contains(&self.number.into())
            && self.used().iter().all(Point::good)
            && unused.iter().all(|point| *point == Point::default())
    }

    /// "The net charge of a pulse as a signed sum in half milliamp microseconds"; none of a pulse that
    /// is not good.
    pub fn charge(&self) -> Option<i32> {
        self.good().then(|| self.used().iter().map(Point::charge).sum())
    }
}
