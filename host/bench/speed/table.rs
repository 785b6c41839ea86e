//! The tables for people, in Markdown.

use crate::meter::Pair;

const LEGEND: &str = "
Nanoseconds for one call: the least of three medians, the sides measured in turn. Ratio: plain /
library, so that at 1.00 or more the library is no slower. Times real time: how many such calls fit
in the time that one has, 100,000 ns for a tick or a readout, 86,806 ns for a byte or each byte of a
frame, and for each byte of a packet or of what stands where one is looked for the time of 11 bits:
23,872 ns for the RehaStim2, at 460,800 baud with a start, a parity and a stop, and 3,667 ns for the
RehaMove3, at 3,000,000 baud with a start and two stops. Independent: packets by a grammar and sheets
by the crate csv, near to the papers and not made to be fast. Mixed: the three kinds of record in a
random order; mostly pulses: each 16th record is an answer.";

/// The nanoseconds from one tick to the next: there are 10,000 a second.
pub const TICK: f64 = 1e9 / 10_000.0;

/// The nanoseconds from one byte to the next: a line of 115,200 baud has 11,520 a second.
pub const BYTE: f64 = 1e9 / 11_520.0;

/// The nanoseconds from one byte to the next on a line of this rate, if a byte has 11 bits.
pub const fn byte_of_11_bits(baud: u32) -> f64 {
    11.0 * 1e9 / baud as f64
}

pub struct Table {
    pub title: &'static str,
    /// The names of the columns behind the ratio.
    pub further: &'static [&'static str],
    pub rows: Vec<Row>,
    pub note: String,
}

/// A measured call.
pub struct Row {
    pub what: String,
    pub pair: Pair,
    /// What stands behind the ratio.
    pub further: Vec<String>,
}

impl Table {
    /// A table with nothing behind the ratio and without a note.
    pub fn new(title: &'static str, rows: Vec<Row>) -> Table {
        Table { title, further: &[], rows, note: String::new() }
    }

    /// A table of calls that have a time to be done in.
    pub fn timed(title: &'static str, rows: Vec<Row>) -> Table {
        Table { further: &["times real time"], ..Table::new(title, rows) }
    }
}

impl Row {
    /// A row with nothing behind the ratio.
    pub fn new(what: impl Into<String>, pair: Pair) -> Row {
        Row { what: what.into(), pair, further: Vec::new() }
    }

    /// A row of calls that have this time to be done in, in nanoseconds.
    pub fn timed(what: impl Into<String>, pair: Pair, time: f64) -> Row {
        Row { further: vec![whole(time / pair.library)], ..Row::new(what, pair) }
    }

    /// The row with the nanoseconds of a further side straight behind the ratio.
    pub fn beside(mut self, nanoseconds: f64) -> Row {
        self.further.insert(0, time(nanoseconds));
        self
    }
}

/// All tables that have rows, and how many ratios are below 1.
pub fn print(tables: &[Table]) {
    let rows: Vec<&Row> = tables.iter().flat_map(|table| &table.rows).collect();
    if rows.is_empty() {
        return;
    }
    println!("{LEGEND}");
    for table in tables.iter().filter(|table| !table.rows.is_empty()) {
        table.print();
    }
    let below = rows.iter().filter(|row| row.pair.ratio() < 1.0).count();
    println!("\n{below} of {} ratios are below 1.00.", rows.len());
}

impl Table {
    fn print(&self) {
        let head = [self.title, "library", "plain", "ratio"];
        let head = head.iter().chain(self.further).map(|name| name.to_string());
        let mut lines = vec![head.collect()];
        lines.extend(self.rows.iter().map(Row::cells));
        let widths: Vec<usize> = (0..lines[0].len())
            .map(|column| lines.iter().map(|line| line[column].len()).fold(0, usize::max))
            .collect();
        println!();
        for (index, line) in lines.iter().enumerate() {
            print_line(line, &widths);
            if index == 0 {
                print_rule(&widths);
            }
        }
        if !self.note.is_empty() {
            println!("\n{}", self.note);
        }
    }
}

impl Row {
    fn cells(&self) -> Vec<String> {
        let Pair { library, plain } = self.pair;
        let ratio = format!("{:.2}", self.pair.ratio());
        let mut cells = vec![self.what.clone(), time(library), time(plain), ratio];
        cells.extend_from_slice(&self.further);
        cells
    }
}

/// The first column begins at the left, all others end at the right.
fn print_line(cells: &[String], widths: &[usize]) {
    print!("| {:1$} |", cells[0], widths[0]);
    for (cell, width) in cells.iter().zip(widths).skip(1) {
        print!(" {cell:>width$} |");
    }
    println!();
}

fn print_rule(widths: &[usize]) {
    print!("|{}|", "-".repeat(widths[0] + 2));
    for width in &widths[1..] {
        print!("{}:|", "-".repeat(width + 1));
    }
    println!();
}

/// Nanoseconds, with a tenth where they are few.
fn time(nanoseconds: f64) -> String {
    if nanoseconds < 100.0 {
        format!("{nanoseconds:.1}")
    } else {
        whole(nanoseconds)
    }
}

/// A whole number, its thousands apart.
fn whole(number: f64) -> String {
    let digits = format!("{number:.0}");
    let mut apart = String::new();
    for (index, digit) in digits.chars().enumerate() {
        if index > 0 && (digits.len() - index) % 3 == 0 {
            apart.push(',');
        }
        apart.push(digit);
    }
    apart
}
