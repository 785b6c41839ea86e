//! Trips, as lines through the lanes with the words of their causes.

use super::axis::{Time, LEFT};
use super::ink::{self, filled, Area, Drawn};
use super::labels::{Labels, LEVEL};
use super::thinning::apart;
use crate::course::{Event, What};
use plotters::prelude::{Polygon, Text};
use plotters::style::text_anchor::{HPos, VPos};
use plotters::style::Color;

/// The height of their row, from which the lines go down.
pub const HEIGHT: u32 = (WORDS + 10) as u32;

const LEVELS: i32 = 2;
const WORDS: i32 = LEVELS * LEVEL;

/// Lines that are nearer would hide the pulses between them.
pub const APART: i32 = 4;

/// Hands back whether some trips were left out.
pub fn draw(area: &Area, events: &[Event], time: &Time) -> Result<bool, ink::Failed> {
    let name = ink::text(ink::SMALL, HPos::Right, VPos::Center);
    area.draw(&Text::new("trips", (LEFT - 10, WORDS - LEVEL / 2), name))?;
    let trips = events.iter().filter_map(|event| match event.what {
        What::Trip(cause) => Some((time.column(event.clock), cause)),
        _ => None,
    });
    let kept = apart(trips.clone(), APART);
    let mut labels = Labels::new(LEVELS);
    for (column, cause) in kept.iter().rev() {
        draw_line(area, (*column, WORDS))?;
        labels.place(cause.to_string(), (*column, WORDS));
    }
    labels.draw(area, ink::ALARM, ink::ALARM)?;
    Ok(kept.len() < trips.count())
}

/// A line from a head down to the area's foot.
pub fn draw_line(area: &Area, (x, y): (i32, i32)) -> Drawn {
    let head = [(x - 5, y), (x + 7, y), (x + 1, y + 9)];
    area.draw(&Polygon::new(head, ink::ALARM.filled()))?;
    let height = area.dim_in_pixel().1 as i32;
    area.draw(&filled((x, y), (2, height - y), ink::ALARM))
}
