//! What stands below a pulse: its charges, and its points.

use super::{Panel, ABOVE, BELOW};
use crate::packet::rehamove3::amounts::{charge, milliamps};
use crate::packet::rehamove3::areas::Areas;
use crate::packet::rehamove3::points::NOT_WRITTEN;
use crate::picture::axis::LEFT;
use crate::picture::ink::{self, filled, Area, Drawn};
use plotters::prelude::{FontStyle, Text};
use plotters::style::text_anchor::{HPos, Pos, VPos};

const LINE: i32 = 22;

/// The breadth and height of a swatch.
const SWATCH: (i32, i32) = (26, 14);

/// Where the names of its lines begin, and how many points stand in a line, how far from each other.
const NAMES: i32 = 14;
const IN_LINE: usize = 4;
const STEP: usize = 240;

/// The charges, the points, and a little space below.
pub fn height(panel: &Panel) -> u32 {
    (3 + panel.points.len().div_ceil(IN_LINE)) as u32 * LINE as u32 + 22
}

pub fn draw(area: &Area, panel: &Panel) -> Drawn {
    let Areas { above, below } = Areas::of(&panel.points);
    say(area, "charge", NAMES, 0)?;
    for (top, side, halves, tint) in [(0, "above", above, ABOVE), (LINE, "below", below, BELOW)] {
        area.draw(&filled((LEFT, top + (LINE - SWATCH.1) / 2), SWATCH, tint))?;
        say(area, &format!("{side} zero: {}", charge(halves)), LEFT + SWATCH.0 + 8, top)?;
    }
    draw_net(area, panel.net, 2 * LINE)?;
    say(area, "points", NAMES, 3 * LINE)?;
    for (at, point) in panel.points.iter().enumerate() {
        let (line, column) = (at / IN_LINE, at % IN_LINE);
        let ring = if point.duration == 0 { ", a ring" } else { "" };
        let current = milliamps(point.current.into());
        let words = format!("{}: {} µs, {current}{ring}", at + 1, point.duration);
        say(area, &words, LEFT + (column * STEP) as i32, (3 + line as i32) * LINE)?;
    }
    Ok(())
}

/// In alarm if it is not zero.
fn draw_net(area: &Area, net: i32, top: i32) -> Drawn {
    say(area, "net charge", NAMES, top)?;
    if net == 0 {
        return say(area, "0", LEFT, top);
    }
    let style = ink::font(ink::PLAIN, FontStyle::Bold).color(&ink::ALARM);
    let style = style.pos(Pos::new(HPos::Left, VPos::Center));
    let words = format!("{}: {NOT_WRITTEN}", charge(net));
    area.draw(&Text::new(words, (LEFT, top + LINE / 2), style))
}

/// Words that begin here, in the middle of the line.
fn say(area: &Area, words: &str, x: i32, top: i32) -> Drawn {
    let style = ink::text(ink::PLAIN, HPos::Left, VPos::Center);
    area.draw(&Text::new(words, (x, top + LINE / 2), style))
}
