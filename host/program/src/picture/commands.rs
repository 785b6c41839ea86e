//! Commands and their answers, and bytes that led to none, as marks along the top.

use super::axis::{Time, LEFT};
use super::ink::{self, filled, Area, Drawn};
use super::labels::{Labels, LEVEL};
use super::thinning::apart;
use super::Panel;
use crate::course::{Decided, Event, What};
use crate::words;
use plotters::prelude::{Circle, Cross, Polygon, Text};
use plotters::style::text_anchor::{HPos, VPos};
use plotters::style::Color;
use yarrowbell::Answer;

const LEVELS: i32 = 4;
const ROW: i32 = 14;

/// Marks of a kind that are nearer would be one blot.
pub const APART: i32 = 3;

#[derive(Clone, Copy, PartialEq, Eq)]
pub enum Mark {
    Done,
    Refused,
    Stray,
    Dropped,
}

impl Mark {
    fn of(what: &What) -> Option<Mark> {
        match what {
            What::Decided(Decided { answer: Answer::Done, .. }) => Some(Mark::Done),
            What::Decided(_) => Some(Mark::Refused),
            What::Stray(_) => Some(Mark::Stray),
            What::Dropped(_) => Some(Mark::Dropped),
            What::Unfinished(_) | What::Pulse(_) | What::Trip(_) => None,
        }
    }

    fn name(self) -> &'static str {
        match self {
            Mark::Done => "carried out",
            Mark::Refused => "refused",
            Mark::Stray => "stray bytes",
            Mark::Dropped => "dropped frames",
        }
    }

    /// Each kind has its own shape.
    pub fn draw(self, area: &Area, (x, y): (i32, i32)) -> Drawn {
        match self {
            Mark::Done => {
                let corners = [(x - 3, y - 4), (x + 4, y - 4), (x + 1, y + 4), (x, y + 4)];
                area.draw(&Polygon::new(corners, ink::BLACK.filled()))
            }
            Mark::Refused => area.draw(&Cross::new((x, y), 4, ink::ALARM.stroke_width(2))),
            Mark::Stray => area.draw(&Circle::new((x, y), 3, ink::GREY.stroke_width(1))),
            Mark::Dropped => area.draw(&filled((x - 4, y - 1), (9, 3), ink::GREY)),
        }
    }
}

/// The kinds of marks that a picture has, each in its row, the same in all its panels.
pub struct Rows(Vec<Mark>);

impl Rows {
    pub fn of(panels: &[Panel]) -> Rows {
        let marks = panels.iter().flat_map(|panel| panel.events);
        let marks: Vec<Mark> = marks.filter_map(|event| Mark::of(&event.what)).collect();
        let all = [Mark::Done, Mark::Refused, Mark::Stray, Mark::Dropped];
        Rows(all.into_iter().filter(|mark| marks.contains(mark)).collect())
    }

    pub fn height(&self) -> u32 {
        (LEVELS * LEVEL + self.0.len() as i32 * ROW) as u32
    }

    /// The rows with their middles.
    fn middles(&self) -> impl Iterator<Item = (Mark, i32)> + '_ {
        let middles = (LEVELS * LEVEL + ROW / 2..).step_by(ROW as usize);
        self.0.iter().copied().zip(middles)
    }

    /// Hands back whether some marks were left out.
    pub fn draw(&self, area: &Area, events: &[Event], time: &Time) -> Result<bool, ink::Failed> {
        let name = ink::text(ink::SMALL, HPos::Right, VPos::Center);
        self.draw_labels(area, events, time)?;
        let mut left_out = false;
        for (mark, middle) in self.middles() {
            area.draw(&Text::new(mark.name(), (LEFT - 10, middle), name.clone()))?;
            let all = events.iter().filter(|event| Mark::of(&event.what) == Some(mark));
            let kept = apart(all.clone().map(|event| (time.column(event.clock), event)), APART);
            left_out |= kept.len() < all.count();
            for (column, _) in kept {
                mark.draw(area, (column, middle))?;
            }
        }
        Ok(left_out)
    }

    /// A label is the command's name and its answer's number. Where not all have room the refusals
    /// come first: they are fewer, and more is to be seen in them.
    fn draw_labels(&self, area: &Area, events: &[Event], time: &Time) -> Drawn {
        let place = |labels: &mut Labels, mark: Mark, event: &Event| match &event.what {
            What::Decided(Decided { bytes, answer, .. }) if Mark::of(&event.what) == Some(mark) => {
                let words = format!("{} {}", words::name(bytes[0]), answer.number());
                let row = self.middles().find(|(row, _)| *row == mark);
                let foot = row.map_or(0, |(_, middle)| middle);
                labels.place(words, (time.column(event.clock), foot))
            }
            _ => true,
        };
        let either = [Mark::Refused, Mark::Done];
        let mut labels = Labels::new(LEVELS);
        let mut last_first = events.iter().rev();
        if !last_first.all(|event| either.iter().all(|mark| place(&mut labels, *mark, event))) {
            labels = Labels::new(LEVELS);
            for mark in either {
                for event in events.iter().rev() {
                    place(&mut labels, mark, event);
                }
            }
        }
        labels.draw(area, ink::BLACK, ink::RULE)
    }
}
