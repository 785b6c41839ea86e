//! The steps of a pulse, with the areas between them and zero.

use super::currents::Currents;
use super::label;
use super::{ABOVE, BELOW};
use crate::packet::rehamove3::amounts::nanocoulombs;
use crate::packet::rehamove3::areas::charge;
use crate::picture::axis::Time;
use crate::picture::ink::{self, filled, Area, Drawn};
use plotters::prelude::{Circle, Color, Text, WHITE};
use plotters::style::text_anchor::{HPos, VPos};
use yarrowbell::rehamove3::Point;

/// How thick the line of the current is, and how far a tick goes beyond it.
const LINE: i32 = 2;
const TICK: i32 = 4;

/// Between words and what is around them.
const AROUND: i32 = 6;

/// A point, its place counted from 1, and from when on it flows.
struct Step<'a> {
    place: usize,
    point: &'a Point,
    begin: u32,
}

/// Where a step is drawn: from a column to another, from the row of zero to that of its current.
struct Drawing {
    from: i32,
    to: i32,
    zero: i32,
    row: i32,
}

pub struct Steps<'a>(Vec<Step<'a>>);

impl<'a> Steps<'a> {
    pub fn of(points: &'a [Point]) -> Steps<'a> {
        let mut end = 0;
        let step = |(place, point): (usize, &'a Point)| {
            let begin = end;
            end += u32::from(point.duration);
            Step { place, point, begin }
        };
        Steps((1..).zip(points).map(step).collect())
    }

    /// When the last point has flowed.
    pub fn end(&self) -> u32 {
        self.0.last().map_or(0, Step::end)
    }

    pub fn draw(&self, area: &Area, time: &Time, currents: &Currents) -> Drawn {
        let flowing = || self.0.iter().filter(|step| step.point.duration != 0);
        for step in flowing() {
            step.placed(time, currents).draw_area(area, step.point)?;
        }
        let mut row = currents.row(0);
        for step in flowing() {
            let placed = step.placed(time, currents);
            draw_line(area, placed.from, row, &placed)?;
            row = placed.row;
        }
        if self.end() != 0 {
            draw_upright(area, time.column(self.end()), row, currents.row(0))?;
        }
        for step in flowing() {
            let placed = step.placed(time, currents);
            label::draw(area, step.place, step.point, (placed.from, placed.to), placed.row)?;
        }
        for step in self.0.iter().filter(|step| step.point.duration == 0) {
            let placed = step.placed(time, currents);
            draw_ring(area, (placed.from, placed.row))?;
            label::draw_beside(area, step.place, (placed.from, placed.row))?;
        }
        Ok(())
    }
}

impl Step<'_> {
    fn end(&self) -> u32 {
        self.begin + u32::from(self.point.duration)
    }

    fn placed(&self, time: &Time, currents: &Currents) -> Drawing {
        let (from, to) = (time.column(self.begin), time.column(self.end()));
        Drawing { from, to, zero: currents.row(0), row: currents.row(self.point.current) }
    }
}

impl Drawing {
    /// The tinted area, with its charge where there is room.
    fn draw_area(&self, area: &Area, point: &Point) -> Drawn {
        let (top, height) = (self.row.min(self.zero), (self.row - self.zero).abs());
        let breadth = (self.to - self.from).max(1);
        if height == 0 {
            return Ok(());
        }
        let tint = if point.current > 0 { ABOVE } else { BELOW };
        area.draw(&filled((self.from, top), (breadth, height), tint))?;
        let words = nanocoulombs(charge(point));
        if ink::length(&words, ink::SMALL) + AROUND > breadth || height < ink::SMALL + AROUND {
            return Ok(());
        }
        let style = ink::text(ink::SMALL, HPos::Center, VPos::Center);
        area.draw(&Text::new(words, (self.from + breadth / 2, top + height / 2), style))
    }
}

/// From the row before it up or down to its own, and along that. A tick shows where it begins.
fn draw_line(area: &Area, column: i32, before: i32, placed: &Drawing) -> Drawn {
    draw_upright(area, column, before, placed.row)?;
    area.draw(&filled((column, placed.row - TICK), (1, 2 * TICK + LINE), ink::BLACK))?;
    let breadth = (placed.to - placed.from).max(1);
    area.draw(&filled((placed.from, placed.row), (breadth, LINE), ink::BLACK))
}

fn draw_upright(area: &Area, column: i32, one: i32, other: i32) -> Drawn {
    let (top, height) = (one.min(other), (one - other).abs());
    area.draw(&filled((column, top), (LINE, height + LINE), ink::BLACK))
}

/// A point that flows no time.
fn draw_ring(area: &Area, at: (i32, i32)) -> Drawn {
    area.draw(&Circle::new(at, 4, ink::BLACK.filled()))?;
    area.draw(&Circle::new(at, 2, WHITE.filled()))
}
