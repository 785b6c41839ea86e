//! Currents and charges in words. Both are counted in halves: a current in half milliamps, a charge
//! in half milliamp microseconds, two of which are one nanocoulomb.

use crate::words::thousands;

/// With a half or without, as 20.5 mA.
pub fn milliamps(halves: i32) -> String {
    format!("{}.{} mA", whole(halves), tenths(halves))
}

/// With a half if there is one, as 2,500.5 nC.
pub fn nanocoulombs(halves: i32) -> String {
    match tenths(halves) {
        0 => format!("{} nC", whole(halves)),
        half => format!("{}.{half} nC", whole(halves)),
    }
}

/// In both units, as 10,000 half mA µs = 5,000 nC.
pub fn charge(halves: i32) -> String {
    match halves {
        0 => "0".to_owned(),
        _ => format!("{} half mA µs = {}", signed(halves), nanocoulombs(halves)),
    }
}

/// A number with commas.
pub fn signed(number: i32) -> String {
    format!("{}{}", sign(number), thousands(number.unsigned_abs().into()))
}

fn whole(halves: i32) -> String {
    format!("{}{}", sign(halves), thousands((halves.unsigned_abs() / 2).into()))
}

fn tenths(halves: i32) -> u32 {
    5 * (halves.unsigned_abs() % 2)
}

fn sign(number: i32) -> &'static str {
    if number < 0 {
        "-"
    } else {
        ""
    }
}

#[cfg(test)]
mod tests {
    use super::{charge, milliamps, nanocoulombs};

    #[test]
    fn halves() {
        assert_eq!(
            [40, 1, 0, -1, -40, -41].map(milliamps),
            ["20.0 mA", "0.5 mA", "0.0 mA", "-0.5 mA", "-20.0 mA", "-20.5 mA"]
        );
        assert_eq!(
            [2, 1, 0, -1, -10_001].map(nanocoulombs),
            ["1 nC", "0.5 nC", "0 nC", "-0.5 nC", "-5,000.5 nC"]
        );
        assert_eq!([0, -2_000].map(charge), ["0", "-2,000 half mA µs = -1,000 nC"]);
    }
}
