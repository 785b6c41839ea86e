//! Courses as a picture in SVG.

mod axis;
mod bands;
mod commands;
mod ink;
mod labels;
mod lanes;
mod legend;
mod panel;
pub mod pulse;
mod scale;
mod thinning;
mod tint;
pub mod title;
mod trips;
mod used;

use crate::course::Event;
use axis::Time;
use commands::Rows;
use ink::{Area, Drawn};
use lanes::Lanes;
use panel::Common;
use plotters::prelude::{IntoDrawingArea, SVGBackend, WHITE};

const WIDTH: u32 = 1200;
const TOP: u32 = 12;

/// What one unit did.
pub struct Panel<'a> {
    pub title: &'a str,
    pub events: &'a [Event],
}

/// The panels one above the other, from clock 0 to the end, which is the same for all. They have the
/// same lanes too: those of all channels, or of the channels that are used.
pub fn svg(panels: &[Panel], end: u32, all_lanes: bool) -> String {
    let time = Time::until(end);
    let channels = if all_lanes { used::ALL.collect() } else { used::channels(panels) };
    let lanes = panels.iter().map(|panel| Lanes::of(panel.events, &channels, &time));
    let lanes: Vec<Lanes> = lanes.collect();
    let (rows, breadth) = (Rows::of(panels), lanes::breadth(&lanes));
    let common = Common { time, rows, breadth, lanes: channels.len() };
    let height = TOP + panels.len() as u32 * common.height() + legend::HEIGHT;
    let mut text = String::new();
    let area = SVGBackend::with_string(&mut text, (WIDTH, height)).into_drawing_area();
    draw(&area, panels, &lanes, &common).expect("a string takes all that is drawn");
    drop(area);
    text
}

fn draw(area: &Area, panels: &[Panel], lanes: &[Lanes], common: &Common) -> Drawn {
    area.fill(&WHITE)?;
    let (_, mut rest) = area.split_vertically(TOP);
    for (panel, lanes) in panels.iter().zip(lanes) {
        let (top, below) = rest.split_vertically(common.height());
        panel::draw(&top, panel, lanes, common)?;
        rest = below;
    }
    legend::draw(&rest)?;
    area.present()
}

#[cfg(test)]
mod tests;
#[cfg(test)]
#[path = "../../tests/program/well_formed.rs"]
mod well_formed;
