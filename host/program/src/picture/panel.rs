//! One unit's box of the picture.

use super::axis::{self, Time, RIGHT};
use super::bands::{self, Bands};
use super::commands::{self, Rows};
use super::ink::{self, Area, Drawn};
use super::lanes::{self, Lanes};
use super::{title, trips, Panel};
use plotters::prelude::Text;
use plotters::style::text_anchor::{HPos, VPos};

/// The height of a note and the space below it.
const NOTE: u32 = 22;

/// What all panels of a picture have in common.
pub struct Common {
    pub time: Time,
    pub rows: Rows,
    /// How broad a bar is.
    pub breadth: i32,
    /// How many lanes there are.
    pub lanes: usize,
}

impl Common {
    /// The height of a panel.
    pub fn height(&self) -> u32 {
        title::HEIGHT + self.rows.height() + self.body() + axis::HEIGHT + NOTE
    }

    /// Trips, states and lanes.
    fn body(&self) -> u32 {
        trips::HEIGHT + bands::HEIGHT + lanes::height(self.lanes)
    }
}

pub fn draw(area: &Area, panel: &Panel, lanes: &Lanes, common: &Common) -> Drawn {
    let Common { time, rows, breadth, .. } = common;
    let (top, rest) = area.split_vertically(title::HEIGHT);
    let (marks, rest) = rest.split_vertically(rows.height());
    let (body, foot) = rest.split_vertically(common.body());
    let (above, plot) = body.split_vertically(trips::HEIGHT + bands::HEIGHT);
    let (_, strip) = above.split_vertically(trips::HEIGHT);
    let (foot, note) = foot.split_vertically(axis::HEIGHT);

    let bands = Bands::of(panel.events, time);
    bands.draw_strip(&strip)?;
    bands.draw_shades(&plot)?;
    // Nothing goes through the words that stand where there is no lane.
    let crossed = if common.lanes == 0 { &above } else { &body };
    if common.lanes > 0 {
        time.draw_grid(&plot)?;
    }
    lanes.draw(&plot, *breadth)?;
    time.draw_axis(&foot)?;
    let fewer_trips = trips::draw(crossed, panel.events, time)?;
    let fewer_marks = rows.draw(&marks, panel.events, time)?;
    title::draw(&top, panel.title)?;
    draw_note(&note, lanes.left_out, fewer_marks, fewer_trips)
}

/// Says what is not drawn for want of pixels.
fn draw_note(area: &Area, pulses: bool, marks: bool, trips: bool) -> Drawn {
    let notes = [
        (pulses, "Of a lane's pulses in one pixel column the tallest is drawn.".to_owned()),
        (marks, format!("Marks closer than {} pixels are drawn as one.", commands::APART)),
        (trips, format!("Trips closer than {} pixels are drawn as one.", trips::APART)),
    ];
    let notes: Vec<String> =
        notes.into_iter().filter(|(so, _)| *so).map(|(_, note)| note).collect();
    let style = ink::text(ink::SMALL, HPos::Right, VPos::Top).color(&ink::GREY);
    area.draw(&Text::new(notes.join(" "), (RIGHT, 0), style))
}
