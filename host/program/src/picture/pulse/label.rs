//! What is written at a step.

use crate::packet::rehamove3::amounts::milliamps;
use crate::picture::ink::{self, filled, Area, Drawn};
use plotters::prelude::{RGBColor, Text};
use plotters::style::text_anchor::{HPos, VPos};
use yarrowbell::rehamove3::Point;

/// The height of a line of words, and how far the first is from the step.
const LINE: i32 = 13;
const APART: i32 = 7;

const PAPER: RGBColor = RGBColor(0xFF, 0xFF, 0xFF);

/// Kept free on both sides.
const BESIDE: i32 = 3;

/// All of a point in one line or in two, or its place alone, or nothing: as much as has room between
/// these columns, on the far side of its row.
pub fn draw(area: &Area, place: usize, point: &Point, (from, to): (i32, i32), row: i32) -> Drawn {
    let (duration, current) = (point.duration, milliamps(point.current.into()));
    let choices = [
        vec![format!("{place}: {duration} µs, {current}")],
        vec![format!("{place}: {duration} µs"), current],
        vec![place.to_string()],
    ];
    let room = to - from - 2 * BESIDE;
    let fits = |lines: &&Vec<String>| lines.iter().all(|line| length(line) <= room);
    let Some(lines) = choices.iter().find(fits) else { return Ok(()) };
    let style = ink::text(ink::SMALL, HPos::Center, VPos::Center);
    let (above, middle) = (point.current >= 0, (from + to) / 2);
    for (line, words) in (0..).zip(lines) {
        let last = lines.len() as i32 - 1;
        let away = APART + LINE * if above { last - line } else { line };
        let at = if above { row - away } else { row + away + 2 };
        // No rule of the grid goes through the words.
        let (breadth, height) = (length(words), LINE - 2);
        let corner = (middle - breadth / 2, at - height / 2);
        area.draw(&filled(corner, (breadth, height), PAPER))?;
        area.draw(&Text::new(words.as_str(), (middle, at), style.clone()))?;
    }
    Ok(())
}

/// The place of a point that flows no time, beside its ring.
pub fn draw_beside(area: &Area, place: usize, (column, row): (i32, i32)) -> Drawn {
    let style = ink::text(ink::SMALL, HPos::Left, VPos::Center);
    area.draw(&Text::new(place.to_string(), (column + APART, row), style))
}

fn length(words: &str) -> i32 {
    ink::length(words, ink::SMALL)
}
