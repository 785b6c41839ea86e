//! Pulses, point by point.

use crate::calls::rehamove3 as calls;
use crate::raw::rehamove3::{self as raw, Weighed};
use crate::Answer;
use std::fmt;

/// What the code of a current has more than its half milliamps.
const CODED: u16 = 300;

/// A point of a pulse: a current that flows for a while.
#[derive(Clone, Copy, Debug, Default, PartialEq, Eq)]
pub struct Point {
    /// Microseconds, 0 to 4,095.
    pub duration: u16,
    /// Half milliamps, -260 to 260.
    pub current: i16,
}

/// A pulse of 1 to 16 points.
///
/// ```
/// use yarrowbell::rehamove3::{Point, Pulse};
///
/// // 20 mA for 250 µs, a pause of 100 µs, and 20 mA the other way.
/// let points = [(250, 40), (100, 0), (250, -40)];
/// let points = points.map(|(duration, current)| Point { duration, current });
/// let pulse = Pulse::new(&points).expect("a pulse has 1 to 16 points");
/// assert_eq!(pulse.points(), points);
/// assert_eq!(pulse.charge(), Some(0));
///
/// let first = Pulse::new(&points[..2]).expect("a pulse has 1 to 16 points");
/// assert_eq!(first.charge(), Some(10_000));
///
/// assert_eq!(Pulse::new(&[]), None);
/// assert_eq!(Pulse::new(&[Point::default(); 17]), None);
/// ```
#[derive(Clone, Copy, PartialEq, Eq)]
pub struct Pulse {
    number: usize,
    /// Zeros behind as many as there are.
    all: [Point; Pulse::MOST],
}

impl Pulse {
    /// How many points a pulse has at most.
    pub const MOST: usize = 16;

    /// The pulse of these points, whether or not they are good; none if they are too few or too many.
    pub fn new(points: &[Point]) -> Option<Pulse> {
        let mut all = [Point::default(); Pulse::MOST];
        all.get_mut(..points.len())?.copy_from_slice(points);
        (!points.is_empty()).then_some(Pulse { number: points.len(), all })
    }

    /// Its points, the first to flow first.
    pub fn points(&self) -> &[Point] {
        &self.all[..self.number]
    }

    /// The net charge, which is the sum over the points of duration times current, in half milliamp
    /// microseconds; nothing if a point is not good.
    pub fn charge(&self) -> Option<i32> {
        let Weighed { charge, answer } = calls::charge(self.raw());
        match Answer::known(answer) {
            Answer::Done => Some(charge),
            Answer::NotGood => None,
            other => panic!("charge: {other:?}"),
        }
    }

    /// The pulse that the library read.
    pub(super) fn known(number: u8, points: &[raw::Point; Pulse::MOST]) -> Pulse {
        let points = &points.map(Point::known)[..number.into()];
        Pulse::new(points).expect("a pulse that is read has 1 to 16 points")
    }

    /// The pulse as the library takes it.
    pub(super) fn raw(&self) -> raw::Pulse {
        let mut points = [raw::Point::default(); Pulse::MOST];
        for (raw, point) in points.iter_mut().zip(self.points()) {
            *raw = point.raw();
        }
        raw::Pulse { number: self.number as u16, points }
    }
}

impl fmt::Debug for Pulse {
    fn fmt(&self, out: &mut fmt::Formatter) -> fmt::Result {
        out.debug_tuple("Pulse").field(&self.points()).finish()
    }
}

impl Point {
    fn known(raw: raw::Point) -> Point {
        Point { duration: raw.duration, current: raw.code.wrapping_sub(CODED) as i16 }
    }

    /// The point as the library takes it. A current so great that its code wraps has none that is good.
    fn raw(self) -> raw::Point {
        raw::Point { duration: self.duration, code: CODED.wrapping_add_signed(self.current) }
    }
}
