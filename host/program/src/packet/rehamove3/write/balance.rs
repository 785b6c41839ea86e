//! What would take away the net charge of a pulse.

use crate::packet::field::Field as _;
use crate::packet::rehamove3::amounts::{charge, milliamps};
use crate::packet::rehamove3::areas::{self, Areas};
use crate::packet::rehamove3::field::{coded, Field};
use yarrowbell::rehamove3::Point;

/// The areas of a pulse with this net charge, and the duration or the current that would balance its
/// last point.
pub fn told(points: &[Point], net: i32) -> String {
    let Areas { above, below } = Areas::of(points);
    let [above, below, net] = [above, below, net].map(charge);
    let balanced = balanced(points);
    format!("charge above zero {above}, below zero {below}, net {net}; {balanced}")
}

fn balanced(points: &[Point]) -> String {
    let place = points.len();
    match (duration(points), current(points)) {
        (Some(duration), Some(current)) => {
            format!("point {place} would balance it with {duration} µs, or with {current}")
        }
        (Some(duration), None) => format!("point {place} would balance it with {duration} µs"),
        (None, Some(current)) => format!("point {place} would balance it with {current}"),
        (None, None) => {
            format!("no other duration or current of point {place} alone would balance it")
        }
    }
}

/// The duration of the last point that would balance the pulse, if one does that is good.
fn duration(points: &[Point]) -> Option<i32> {
    let duration = opposite(points, |last| last.current.into())?;
    Field::Duration.broken(duration).is_none().then_some(duration)
}

/// The same of its current.
fn current(points: &[Point]) -> Option<String> {
    let current = opposite(points, |last| last.duration.into())?;
    let code = coded(i16::try_from(current).ok()?);
    Field::Current.broken(code).is_none().then(|| milliamps(current))
}

/// What times this number of the last point is the opposite of all that the points before it bring.
fn opposite(points: &[Point], times: impl Fn(&Point) -> i32) -> Option<i32> {
    let (last, before) = points.split_last()?;
    let (rest, times) = (before.iter().map(areas::charge).sum::<i32>(), times(last));
    (times != 0 && rest % times == 0).then(|| -rest / times)
}

#[cfg(test)]
mod tests {
    use super::{balanced, Point};

    fn points(points: &[(u16, i16)]) -> Vec<Point> {
        points
            .iter()
            .map(|(duration, current)| Point { duration: *duration, current: *current })
            .collect()
    }

    #[test]
    fn the_last_point() {
        for (given, words) in [
            (
                &[(250, 40), (100, 0), (200, -40)][..],
                "point 3 would balance it with 250 µs, or with -25.0 mA",
            ),
            (&[(250, 40), (200, -30)], "point 2 would balance it with -25.0 mA"),
            (&[(300, 40), (7, -40)], "point 2 would balance it with 300 µs"),
            (&[(250, 40), (0, -40)], "point 2 would balance it with 250 µs"),
            (&[(250, 40), (100, 0)], "point 2 would balance it with -50.0 mA"),
            (&[(250, 40)], "point 1 would balance it with 0 µs, or with 0.0 mA"),
            (&[(250, 40), (50, 40)], "point 2 would balance it with -100.0 mA"),
            (
                &[(250, 40), (30, 40)],
                "no other duration or current of point 2 alone would balance it",
            ),
            (
                &[(4095, 260), (100, -1)],
                "no other duration or current of point 2 alone would balance it",
            ),
        ] {
            assert_eq!(balanced(&points(given)), words, "{given:?}");
        }
    }
}
