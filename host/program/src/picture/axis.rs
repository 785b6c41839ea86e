//! Time, from left to right.

use super::ink::{self, filled, Area, Drawn};
use super::WIDTH;
use crate::words;
use plotters::coord::ranged1d::Ranged;
use plotters::coord::types::RangedCoordu32;
use plotters::prelude::Text;
use plotters::style::text_anchor::{HPos, VPos};

pub const HEIGHT: u32 = 46;

/// Where the clock's start and the plot's right edge are. A label of something at the end has room
/// behind that edge.
pub const LEFT: i32 = 150;
pub const RIGHT: i32 = WIDTH as i32 - 64;

/// Between the clock's end and the plot's right edge, for what happens at the end.
const AFTER: i32 = 8;

/// No more numbers than this have room.
const NUMBERS: usize = 11;

/// A unit of time by its name, and how many ticks it has.
struct Unit {
    name: &'static str,
    ticks: u32,
}

const MICROSECONDS: Unit = Unit { name: "microseconds (µs)", ticks: 1 };
const MILLISECONDS: Unit = Unit { name: "milliseconds (ms)", ticks: 10 };
const SECONDS: Unit = Unit { name: "seconds (s)", ticks: 10_000 };

/// From this end on, in ticks, milliseconds would have five digits and more.
const LONG: u32 = 100_000;

pub struct Time {
    end: u32,
    clocks: RangedCoordu32,
    unit: Unit,
}

impl Time {
    /// From clock 0. One tick is shown if the end is 0 too.
    pub fn until(end: u32) -> Time {
        Time::counted(end, if end < LONG { MILLISECONDS } else { SECONDS })
    }

    /// The same of microseconds.
    pub fn of_microseconds(end: u32) -> Time {
        Time::counted(end, MICROSECONDS)
    }

    fn counted(end: u32, unit: Unit) -> Time {
        let end = end.max(1);
        Time { end, clocks: (0..end).into(), unit }
    }

    /// The column of pixels of a clock.
    pub fn column(&self, clock: u32) -> i32 {
        self.clocks.map(&clock.min(self.end), (LEFT, RIGHT - AFTER))
    }

    /// The clocks that are written at the axis.
    fn round(&self) -> Vec<u32> {
        self.clocks.key_points(NUMBERS)
    }

    /// Rules from the numbers up through an area.
    pub fn draw_grid(&self, area: &Area) -> Drawn {
        let height = area.dim_in_pixel().1 as i32;
        for clock in self.round() {
            area.draw(&filled((self.column(clock), 0), (1, height), ink::GRID))?;
        }
        Ok(())
    }

    pub fn draw_axis(&self, area: &Area) -> Drawn {
        area.draw(&filled((LEFT, 0), (RIGHT - LEFT, 1), ink::GREY))?;
        let number = ink::text(ink::PLAIN, HPos::Center, VPos::Top);
        let unit = &self.unit;
        for clock in self.round() {
            let column = self.column(clock);
            area.draw(&filled((column, 0), (1, 6), ink::GREY))?;
            area.draw(&Text::new(unit.written(clock), (column, 8), number.clone()))?;
        }
        let name = format!("time in {}", unit.name);
        area.draw(&Text::new(name, ((LEFT + RIGHT) / 2, 25), number))
    }
}

impl Unit {
    /// A clock in this unit, without a fraction that is none.
    fn written(&self, clock: u32) -> String {
        let whole = words::thousands((clock / self.ticks).into());
        let digits = self.ticks.ilog10() as usize;
        let fraction = format!("{:0digits$}", clock % self.ticks);
        match fraction.trim_end_matches('0') {
            "" => whole,
            fraction => format!("{whole}.{fraction}"),
        }
    }
}

#[cfg(test)]
mod tests {
    use super::{Time, MILLISECONDS, SECONDS};

    #[test]
    fn round_numbers() {
        let written = |end| -> Vec<String> {
            let time = Time::until(end);
            time.round().into_iter().map(|clock| time.unit.written(clock)).collect()
        };
        assert_eq!(written(0), ["0", "0.1"]);
        assert_eq!(written(300), ["0", "5", "10", "15", "20", "25", "30"]);
        assert_eq!(written(99_999).last().map(String::as_str), Some("9,000"));
        assert_eq!(written(100_000)[..3], ["0", "1", "2"]);
        assert_eq!(written(u32::MAX).last().map(String::as_str), Some("400,000"));
    }

    #[test]
    fn fractions() {
        assert_eq!(
            [0, 5, 10, 12_345].map(|clock| MILLISECONDS.written(clock)),
            ["0", "0.5", "1", "1,234.5"]
        );
        assert_eq!(
            [0, 5, 15_000, 12_345].map(|clock| SECONDS.written(clock)),
            ["0", "0.0005", "1.5", "1.2345"]
        );
    }
}
