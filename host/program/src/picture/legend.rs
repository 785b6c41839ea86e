//! What the picture's tints, shades and marks stand for.

use super::axis::LEFT;
use super::bands::{self, STATES};
use super::commands::Mark;
use super::ink::{self, filled, Area, Drawn};
use super::tint::{self, TINTS};
use super::trips;
use plotters::prelude::Text;
use plotters::style::text_anchor::{HPos, VPos};

pub const HEIGHT: u32 = 3 * LINE as u32 + 14;

const LINE: i32 = 28;

/// Where the names of its lines begin, and how far the swatches are from each other.
const NAMES: i32 = 14;
const STEP: usize = 150;

/// The breadth and height of a swatch, and how much of it is strip where it is of a state.
const SWATCH: (i32, i32) = (26, 18);
const STRIP: i32 = 7;

pub fn draw(area: &Area) -> Drawn {
    let (pulses, rest) = area.split_vertically(LINE);
    let (bands, rest) = rest.split_vertically(LINE);
    let (marks, _) = rest.split_vertically(LINE);
    draw_pulses(&pulses)?;
    draw_bands(&bands)?;
    draw_marks(&marks)
}

/// Words that begin here, in the middle of the line.
fn say(line: &Area, words: &str, x: i32) -> Drawn {
    let style = ink::text(ink::PLAIN, HPos::Left, VPos::Center);
    line.draw(&Text::new(words, (x, SWATCH.1 / 2), style))
}

fn draw_pulses(line: &Area) -> Drawn {
    say(line, "pulse width", NAMES)?;
    for ((tint, ink), x) in TINTS.into_iter().enumerate().zip((LEFT..).step_by(STEP)) {
        line.draw(&filled((x, 0), SWATCH, ink))?;
        say(line, &tint::widths(tint), x + SWATCH.0 + 8)?;
    }
    say(line, "bar height: current, by the lane's scale", LEFT + 5 * STEP as i32)
}

fn draw_bands(line: &Area) -> Drawn {
    say(line, "state", NAMES)?;
    for (state, x) in STATES.into_iter().zip((LEFT..).step_by(STEP)) {
        let (width, height) = SWATCH;
        line.draw(&filled((x, 0), SWATCH, ink::RULE))?;
        line.draw(&filled((x + 1, 1), (width - 2, STRIP), bands::strip(state)))?;
        let below = (width - 2, height - STRIP - 3);
        line.draw(&filled((x + 1, STRIP + 2), below, bands::shade(state)))?;
        say(line, &state.to_string(), x + width + 8)?;
    }
    Ok(())
}

fn draw_marks(line: &Area) -> Drawn {
    say(line, "marks", NAMES)?;
    let marks = [
        (Mark::Done, "command carried out", LEFT),
        (Mark::Refused, "command refused", LEFT + 178),
        (Mark::Stray, "stray byte", LEFT + 336),
        (Mark::Dropped, "dropped frame", LEFT + 448),
    ];
    for (mark, words, x) in marks {
        mark.draw(line, (x + 6, SWATCH.1 / 2))?;
        say(line, words, x + 18)?;
    }
    let (swatch, _) = line.split_vertically(SWATCH.1);
    trips::draw_line(&swatch, (LEFT + 596, 0))?;
    say(line, "trip", LEFT + 610)?;
    say(line, "Update 9: a command and its answer's number", LEFT + 690)
}
