//! Labels above a row of marks, where they have room.

use super::ink::{self, filled, Area, Drawn};
use plotters::prelude::{RGBColor, Text};
use plotters::style::text_anchor::{HPos, VPos};
use std::cmp::Ordering;

/// The height of a level of labels.
pub const LEVEL: i32 = 13;

/// Between a stem and its words.
const BESIDE: i32 = 4;

/// Kept free at the end of words, which may be drawn longer than was thought.
const BEHIND: i32 = 9;

/// Words like a flag: from its foot at a mark a stem goes up past the lower levels, and they stand
/// at its right, up to another column.
struct Label {
    words: String,
    column: i32,
    to: i32,
    foot: i32,
    level: i32,
}

impl Label {
    /// Whether words would stand on words, or a stem go through words.
    fn meets(&self, other: &Label) -> bool {
        let crossed = |low: &Label, high: &Label| (low.column + 1..low.to).contains(&high.column);
        match self.level.cmp(&other.level) {
            Ordering::Less => crossed(self, other),
            Ordering::Greater => crossed(other, self),
            Ordering::Equal => self.column < other.to && other.column < self.to,
        }
    }
}

/// The labels that have found room so far.
pub struct Labels {
    levels: i32,
    placed: Vec<Label>,
}

impl Labels {
    pub fn new(levels: i32) -> Labels {
        Labels { levels, placed: Vec::new() }
    }

    /// Puts words on the lowest level that has room, and hands back whether any has. They go to the
    /// right, so more of them find room if the later marks are asked for first.
    pub fn place(&mut self, words: String, (column, foot): (i32, i32)) -> bool {
        let to = column + BESIDE + ink::length(&words, ink::SMALL) + BEHIND;
        let mut label = Label { words, column, to, foot, level: 0 };
        let room = (0..self.levels).find(|level| {
            label.level = *level;
            !self.placed.iter().any(|other| other.meets(&label))
        });
        if room.is_some() {
            self.placed.push(label);
        }
        room.is_some()
    }

    pub fn draw(&self, area: &Area, words: RGBColor, stem: RGBColor) -> Drawn {
        let style = ink::text(ink::SMALL, HPos::Left, VPos::Center).color(&words);
        for Label { words, column, foot, level, .. } in &self.placed {
            let top = (self.levels - 1 - level) * LEVEL;
            area.draw(&filled((*column, top + 1), (1, foot - top - 1), stem))?;
            let at = (column + BESIDE, top + LEVEL / 2);
            area.draw(&Text::new(words.as_str(), at, style.clone()))?;
        }
        Ok(())
    }
}

#[cfg(test)]
mod tests {
    use super::Labels;

    /// Of four marks close together three have room on three levels.
    #[test]
    fn levels() {
        let mut labels = Labels::new(3);
        for column in [203, 203, 201, 200, 0] {
            labels.place("Stop 0".to_owned(), (column, 100));
        }
        let placed: Vec<_> = labels.placed.iter().map(|at| (at.column, at.level)).collect();
        assert_eq!(placed, [(203, 0), (203, 1), (201, 2), (0, 0)]);
    }

    #[test]
    fn no_stem_goes_through_words() {
        let mut labels = Labels::new(3);
        for column in [200, 210] {
            labels.place("Stop 0".to_owned(), (column, 100));
        }
        assert_eq!(labels.placed.len(), 1);
    }
}
