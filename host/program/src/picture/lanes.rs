//! Lanes of channels, with their pulses as bars.

use super::axis::{Time, LEFT, RIGHT};
use super::ink::{self, filled, Area, Drawn};
use super::scale::Scale;
use super::thinning::tallest;
use super::tint::{self, TINTS};
use crate::course::{Event, Pulse, What};
use crate::words;
use plotters::prelude::{FontStyle, Polygon, Text};
use plotters::style::text_anchor::{HPos, Pos, VPos};
use plotters::style::Color;

/// The height of a full bar, the space above it, and how broad a bar is at most.
const BAR: i32 = 46;
const ABOVE: i32 = 6;
const BROADEST: i32 = 6;

/// The height of so many lanes. Where there is none, words have the room of one.
pub fn height(lanes: usize) -> u32 {
    lanes.max(1) as u32 * (BAR + ABOVE + 1) as u32
}

/// A channel, and its pulses that are drawn, by their columns.
struct Lane {
    channel: u8,
    bars: Vec<(i32, Pulse)>,
}

pub struct Lanes {
    lanes: Vec<Lane>,
    pub left_out: bool,
}

impl Lanes {
    pub fn of(events: &[Event], channels: &[u8], time: &Time) -> Lanes {
        let mut left_out = false;
        let lane = |channel| {
            let pulses = events.iter().filter_map(|event| match event.what {
                What::Pulse(pulse) if pulse.channel == channel => {
                    Some((time.column(event.clock), pulse))
                }
                _ => None,
            });
            let bars = tallest(pulses.clone());
            left_out |= bars.len() < pulses.count();
            Lane { channel, bars }
        };
        Lanes { lanes: channels.iter().copied().map(lane).collect(), left_out }
    }

    pub fn draw(&self, area: &Area, breadth: i32) -> Drawn {
        if self.lanes.is_empty() {
            return draw_none(area);
        }
        let areas = area.split_evenly((self.lanes.len(), 1));
        for (lane, Lane { channel, bars }) in areas.iter().zip(&self.lanes) {
            let highest = bars.iter().map(|(_, pulse)| pulse.current).max();
            let scale = Scale::for_current(highest.unwrap_or(0));
            draw_label(lane, *channel, &scale)?;
            draw_bars(lane, bars, breadth, &scale)?;
            lane.draw(&filled((LEFT, ABOVE + BAR), (RIGHT - LEFT, 1), ink::RULE))?;
        }
        Ok(())
    }
}

fn draw_none(area: &Area) -> Drawn {
    let words = "No channel was listed, and no pulse released.";
    let style = ink::text(ink::PLAIN, HPos::Center, VPos::Center);
    area.draw(&Text::new(words, ((LEFT + RIGHT) / 2, ABOVE + BAR / 2), style))
}

/// How broad all bars are drawn, so that neighbours of a lane stay apart where they can.
pub fn breadth(all: &[Lanes]) -> i32 {
    let lanes = all.iter().flat_map(|panel| &panel.lanes);
    let steps = lanes.flat_map(|lane| lane.bars.windows(2).map(|two| two[1].0 - two[0].0));
    steps.min().map_or(BROADEST, |least| (least - 1).clamp(1, BROADEST))
}

/// The channel, and what the lane's full height stands for.
fn draw_label(lane: &Area, channel: u8, scale: &Scale) -> Drawn {
    let name = ink::text(ink::PLAIN, HPos::Left, VPos::Center);
    lane.draw(&Text::new(format!("channel {channel}"), (14, ABOVE + BAR / 2), name))?;
    let style = if scale.is_wider() { FontStyle::Bold } else { FontStyle::Normal };
    let full = ink::font(ink::SMALL, style).color(&ink::BLACK);
    let full = full.pos(Pos::new(HPos::Right, VPos::Top));
    let none = ink::text(ink::SMALL, HPos::Right, VPos::Bottom);
    lane.draw(&filled((LEFT - 1, ABOVE), (1, BAR), ink::GREY))?;
    for end in [ABOVE, ABOVE + BAR] {
        lane.draw(&filled((LEFT - 5, end), (5, 1), ink::GREY))?;
    }
    let written = format!("{} mA", words::thousands(scale.full.into()));
    lane.draw(&Text::new(written, (LEFT - 8, ABOVE), full))?;
    lane.draw(&Text::new("0", (LEFT - 8, ABOVE + BAR + 2), none))
}

/// The bars of one tint are one polygon, a comb that stands on the lane's ground: a box for each
/// would make the picture of a long session three times as large.
fn draw_bars(lane: &Area, bars: &[(i32, Pulse)], breadth: i32, scale: &Scale) -> Drawn {
    let ground = ABOVE + BAR;
    for (place, ink) in TINTS.iter().enumerate() {
        let teeth = bars.iter().filter(|(_, pulse)| tint::of(pulse.width) == place);
        let comb: Vec<(i32, i32)> = teeth
            .flat_map(|(x, pulse)| {
                let top = ground - scale.height(pulse.current, BAR);
                [(*x, ground), (*x, top), (x + breadth, top), (x + breadth, ground)]
            })
            .collect();
        if !comb.is_empty() {
            lane.draw(&Polygon::new(comb, ink.filled()))?;
        }
    }
    Ok(())
}
