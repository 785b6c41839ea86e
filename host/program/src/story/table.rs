//! The story's lines: the time at the left, and a column for each unit.

use crate::words::{time, TIME};
use crate::wrapping::wrapped;

/// How wide a column is that has others beside it.
const COLUMN: usize = 42;

/// How wide a column is that stands alone: with the time a line has at most 100 places.
const ALONE: usize = 76;

/// What stands behind a column.
const BEHIND: &str = "  ";

/// Columns of one width.
pub struct Table {
    columns: usize,
    width: usize,
}

/// What one unit did, and why.
#[derive(Default)]
pub struct Cell {
    pub what: String,
    pub why: Vec<String>,
}

impl Table {
    pub fn of(columns: usize) -> Table {
        Table { columns, width: if columns == 1 { ALONE } else { COLUMN } }
    }

    pub fn head(&self, names: &[&str]) -> String {
        format!("{TIME}  {}\n", self.row(names.iter().copied()).trim_end())
    }

    /// The lines of a text over all columns.
    pub fn across(&self, text: &str) -> Vec<String> {
        let behind = BEHIND.len();
        wrapped(text, "", self.columns * (self.width + behind) - behind)
    }

    /// The lines of cells beside each other. A mark says that units did not do the same, whatever
    /// their reasons.
    pub fn beside(&self, cells: &[Cell]) -> Vec<String> {
        let lines: Vec<Vec<String>> = cells.iter().map(|cell| cell.lines(self.width)).collect();
        let most = lines.iter().map(Vec::len).max().unwrap_or(0);
        let differ = cells.windows(2).any(|pair| pair[0].what != pair[1].what);
        let row = |place: usize| {
            let mark = if differ && place == 0 { "differ" } else { "" };
            let row = self.row(lines.iter().map(|lines| lines.get(place).map_or("", |line| line)));
            format!("{row}{mark}").trim_end().to_owned()
        };
        (0..most).map(row).collect()
    }

    fn row<'a>(&self, cells: impl Iterator<Item = &'a str>) -> String {
        cells.map(|cell| format!("{cell:0$}{BEHIND}", self.width)).collect()
    }

    /// The lines, with the time before the first.
    pub fn timed(&self, clock: u32, lines: &[String]) -> String {
        let (time, width) = (time(clock), TIME.len());
        let times = std::iter::once(time.as_str()).chain(std::iter::repeat(""));
        lines.iter().zip(times).map(|(line, time)| format!("{time:width$}  {line}\n")).collect()
    }
}

impl Cell {
    fn lines(&self, width: usize) -> Vec<String> {
        let why = self.why.iter().flat_map(|reason| wrapped(reason, "  ", width));
        wrapped(&self.what, "", width).into_iter().chain(why).collect()
    }
}
