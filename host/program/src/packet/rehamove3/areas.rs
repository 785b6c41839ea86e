//! What a pulse brings in each direction.

use yarrowbell::rehamove3::Point;

/// The areas under its current, in half milliamp microseconds.
pub struct Areas {
    pub above: i32,
    /// Not above 0.
    pub below: i32,
}

impl Areas {
    pub fn of(points: &[Point]) -> Areas {
        let sum = |sign: i32| -> i32 {
            points.iter().map(charge).filter(|charge| charge.signum() == sign).sum()
        };
        Areas { above: sum(1), below: sum(-1) }
    }
}

/// What a point brings.
pub fn charge(point: &Point) -> i32 {
    i32::from(point.duration) * i32::from(point.current)
}
