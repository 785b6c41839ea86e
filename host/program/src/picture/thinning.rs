//! What is left out where there are more things than pixels.

use crate::course::Pulse;

/// The tallest pulse of each column, and of equally tall ones the widest. Columns do not fall.
pub fn tallest(pulses: impl Iterator<Item = (i32, Pulse)>) -> Vec<(i32, Pulse)> {
    let mut kept: Vec<(i32, Pulse)> = Vec::new();
    for (column, pulse) in pulses {
        match kept.last_mut() {
            Some((last, tallest)) if *last == column => {
                if (pulse.current, pulse.width) > (tallest.current, tallest.width) {
                    *tallest = pulse;
                }
            }
            _ => kept.push((column, pulse)),
        }
    }
    kept
}

/// Things by their columns, which do not fall, without those nearer than this to the last one kept.
pub fn apart<T>(things: impl Iterator<Item = (i32, T)>, least: i32) -> Vec<(i32, T)> {
    let mut kept: Vec<(i32, T)> = Vec::new();
    for (column, thing) in things {
        match kept.last() {
            Some((last, _)) if column - last < least => (),
            _ => kept.push((column, thing)),
        }
    }
    kept
}

#[cfg(test)]
mod tests {
    use super::{apart, tallest};
    use crate::course::Pulse;

    #[test]
    fn the_tallest_of_a_column_stays() {
        let pulse = |current, width| Pulse { channel: 1, width, current };
        let pulses =
            [(3, pulse(40, 200)), (3, pulse(60, 100)), (3, pulse(60, 300)), (4, pulse(1, 0))];
        assert_eq!(tallest(pulses.into_iter()), [(3, pulse(60, 300)), (4, pulse(1, 0))]);
    }

    #[test]
    fn near_ones_go() {
        let things = [(0, "a"), (3, "b"), (4, "c"), (7, "d"), (8, "e"), (20, "f")];
        let kept = apart(things.into_iter(), 4);
        assert_eq!(kept, [(0, "a"), (4, "c"), (8, "e"), (20, "f")]);
    }
}
