//! Trips of two units at one clock.

use yarrowbell::Cause;

/// The trips of each unit that are the other's not, so far: one of the same cause may come in a
/// later call of the clock.
#[derive(Default)]
pub struct Trips {
    pub clock: u32,
    pub alone: [Vec<Cause>; 2],
}

impl Trips {
    /// The first unit, 0, or the second, 1, trips.
    pub fn add(&mut self, unit: usize, cause: Cause) {
        let others = &mut self.alone[1 - unit];
        match others.iter().position(|other| *other == cause) {
            Some(same) => drop(others.remove(same)),
            None => self.alone[unit].push(cause),
        }
    }
}

#[cfg(test)]
mod tests {
    use super::{Cause, Trips};

    #[test]
    fn equal_ones_go() {
        let mut trips = Trips::default();
        for (unit, cause) in [
            (0, Cause::Watchdog),
            (0, Cause::Limit),
            (1, Cause::Limit),
            (1, Cause::Limit),
            (1, Cause::Limit),
            (0, Cause::Limit),
        ] {
            trips.add(unit, cause);
        }
        assert_eq!(trips.alone, [vec![Cause::Watchdog], vec![Cause::Limit]]);
    }
}
