//! Pulses of the RehaMove3 as a picture in SVG: current over time, point by point.

mod currents;
mod foot;
mod label;
mod steps;

use super::axis::{self, Time};
use super::ink::{Area, Drawn};
use super::{title, TOP, WIDTH};
use currents::Currents;
use plotters::prelude::{IntoDrawingArea, RGBColor, SVGBackend, WHITE};
use steps::Steps;
use yarrowbell::rehamove3::Point;

/// The tints of the areas above and below zero.
const ABOVE: RGBColor = RGBColor(0xCB, 0xDA, 0xEC);
const BELOW: RGBColor = RGBColor(0x92, 0xB0, 0xD3);

/// A pulse.
pub struct Panel {
    pub title: String,
    pub points: Vec<Point>,
    /// Its net charge, as the library has it, in half milliamp microseconds.
    pub net: i32,
}

impl Panel {
    fn height(&self) -> u32 {
        title::HEIGHT + currents::HEIGHT + axis::HEIGHT + foot::height(self)
    }
}

/// The pulses one above the other, all with the same axes.
pub fn svg(panels: &[Panel]) -> String {
    let ends = panels.iter().map(|panel| Steps::of(&panel.points).end());
    let time = Time::of_microseconds(ends.max().unwrap_or(0));
    let points = panels.iter().flat_map(|panel| &panel.points);
    let strongest = points.map(|point| point.current.unsigned_abs()).max();
    let currents = Currents::up_to(strongest.unwrap_or(0));
    let height = TOP + panels.iter().map(Panel::height).sum::<u32>();
    let mut text = String::new();
    let area = SVGBackend::with_string(&mut text, (WIDTH, height)).into_drawing_area();
    draw(&area, panels, &time, &currents).expect("a string takes all that is drawn");
    drop(area);
    text
}

fn draw(area: &Area, panels: &[Panel], time: &Time, currents: &Currents) -> Drawn {
    area.fill(&WHITE)?;
    let (_, mut rest) = area.split_vertically(TOP);
    for panel in panels {
        let (top, below) = rest.split_vertically(title::HEIGHT);
        let (plot, below) = below.split_vertically(currents::HEIGHT);
        let (foot, below) = below.split_vertically(axis::HEIGHT);
        let (charges, below) = below.split_vertically(foot::height(panel));
        title::draw(&top, &panel.title)?;
        time.draw_grid(&plot)?;
        currents.draw_grid(&plot)?;
        Steps::of(&panel.points).draw(&plot, time, currents)?;
        currents.draw_axis(&plot)?;
        time.draw_axis(&foot)?;
        foot::draw(&charges, panel)?;
        rest = below;
    }
    area.present()
}

#[cfg(test)]
mod tests;
