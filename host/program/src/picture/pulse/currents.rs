//! Currents, from bottom to top: as far below zero as above.

use crate::picture::axis::{LEFT, RIGHT};
use crate::picture::ink::{self, filled, Area, Drawn};
use plotters::coord::ranged1d::Ranged;
use plotters::coord::types::RangedCoordi32;
use plotters::prelude::{FontTransform, Text};
use plotters::style::text_anchor::{HPos, VPos};

pub const HEIGHT: u32 = 320;

/// The row of 0 mA, and how far from it the strongest current is: beyond that a label has room.
const ZERO: i32 = HEIGHT as i32 / 2;
const REACH: i32 = ZERO - 34;

/// No more numbers than this have room.
const NUMBERS: usize = 9;

/// What an axis can reach to, in milliamps.
const FULLS: [u16; 10] = [1, 2, 5, 10, 20, 30, 50, 70, 100, 130];

pub struct Currents {
    full: i32,
}

impl Currents {
    /// An axis that has room for this current in half milliamps.
    pub fn up_to(strongest: u16) -> Currents {
        let milliamps = strongest.div_ceil(2);
        let full = FULLS.into_iter().find(|full| milliamps <= *full).unwrap_or(milliamps);
        Currents { full: full.into() }
    }

    /// The row of pixels of a current in half milliamps.
    pub fn row(&self, halves: i16) -> i32 {
        let part = f64::from(halves) / f64::from(2 * self.full);
        ZERO - (part * f64::from(REACH)).round() as i32
    }

    /// The milliamps that are written at the axis, with their rows.
    fn round(&self) -> impl Iterator<Item = (i32, i32)> + '_ {
        let range: RangedCoordi32 = (-self.full..self.full).into();
        let row = |milliamps: i32| ZERO - milliamps * REACH / self.full;
        range.key_points(NUMBERS).into_iter().map(move |milliamps| (milliamps, row(milliamps)))
    }

    pub fn draw_grid(&self, area: &Area) -> Drawn {
        for (_, row) in self.round() {
            area.draw(&filled((LEFT, row), (RIGHT - LEFT, 1), ink::GRID))?;
        }
        Ok(())
    }

    /// The axis with its numbers, and the rule of 0 mA.
    pub fn draw_axis(&self, area: &Area) -> Drawn {
        area.draw(&filled((LEFT - 1, 0), (1, HEIGHT as i32), ink::GREY))?;
        area.draw(&filled((LEFT, ZERO), (RIGHT - LEFT, 1), ink::GREY))?;
        let number = ink::text(ink::PLAIN, HPos::Right, VPos::Center);
        for (milliamps, row) in self.round() {
            area.draw(&filled((LEFT - 6, row), (6, 1), ink::GREY))?;
            area.draw(&Text::new(milliamps.to_string(), (LEFT - 9, row), number.clone()))?;
        }
        let name = ink::text(ink::PLAIN, HPos::Center, VPos::Center);
        let name = name.transform(FontTransform::Rotate270);
        area.draw(&Text::new("current in milliamps (mA)", (LEFT - 60, ZERO), name))
    }
}

#[cfg(test)]
mod tests {
    use super::{Currents, REACH, ZERO};

    #[test]
    fn axes() {
        let full = |halves| Currents::up_to(halves).full;
        assert_eq!([0, 1, 2, 3, 40, 41, 260].map(full), [1, 1, 1, 2, 20, 30, 130]);
        let numbers = |halves| -> Vec<i32> {
            Currents::up_to(halves).round().map(|(milliamps, _)| milliamps).collect()
        };
        assert_eq!(numbers(40), [-20, -15, -10, -5, 0, 5, 10, 15, 20]);
        assert_eq!(numbers(260), [-100, -50, 0, 50, 100]);
    }

    #[test]
    fn rows() {
        let currents = Currents::up_to(40);
        assert_eq!(
            [40, 0, -20].map(|halves| currents.row(halves)),
            [ZERO - REACH, ZERO, ZERO + REACH / 2]
        );
    }
}
