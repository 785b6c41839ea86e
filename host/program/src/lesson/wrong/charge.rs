//! A pulse is called balanced if its currents are: how long each of them flows is forgotten.

use yarrowbell::rehamove3::Point;

pub fn is_balanced(points: &[Point]) -> bool {
    let sum: i32 = points.iter().map(|point| i32::from(point.current)).sum();
    sum == 0
}
