//! The events of a session, one line for each: in a file as CSV, or printed as JSON.

use super::line::Line;
use crate::course::Event;
use crate::failure::{Failure, Out};
use crate::json;
use crate::output::Output;
use crate::play::{play, Step};
use crate::progress::Progress;
use crate::session::Session;
use crate::story::Totals;
use crate::unit::Unit;

/// Where lines go, each as soon as it is there.
pub trait Lines {
    fn put(&mut self, line: &Line) -> Result<(), Failure>;
}

/// Its head is written before the first line.
impl Lines for csv::Writer<Output> {
    fn put(&mut self, line: &Line) -> Result<(), Failure> {
        Ok(self.serialize(line)?)
    }
}

impl Lines for Out<'_> {
    fn put(&mut self, line: &Line) -> Result<(), Failure> {
        json::line(line, *self)
    }
}

/// The units by their names, and what they have done so far.
pub struct Events<'a, L> {
    names: &'a [&'a str],
    totals: Vec<Totals>,
    lines: L,
}

impl<'a> Events<'a, csv::Writer<Output>> {
    /// In a file, which is there when it is finished.
    pub fn in_file(names: &'a [&'a str], file: Output) -> Self {
        Events::begin(names, csv::Writer::from_writer(file))
    }

    /// Behind what was printed, if both go to one place.
    pub fn finish(mut self, out: Out) -> Result<(), Failure> {
        self.lines.flush()?;
        let file = self.lines.into_inner().unwrap_or_else(|_| unreachable!("nothing waits"));
        file.finish(out)
    }
}

impl<'a, L: Lines> Events<'a, L> {
    fn begin(names: &'a [&'a str], lines: L) -> Self {
        Events { names, totals: vec![Totals::default(); names.len()], lines }
    }

    pub fn step(&mut self, step: &Step) -> Result<(), Failure> {
        for ((name, totals), done) in self.names.iter().zip(&mut self.totals).zip(&step.of) {
            totals.add(&done.events);
            for event in &done.events {
                self.lines.put(&Line::of(event, name))?;
            }
        }
        Ok(())
    }

    /// What there is to say at the session's end, and how the units ended, with their rings' bytes
    /// or without.
    pub fn end(
        &mut self,
        ends: &[Option<Event>],
        units: &[&mut dyn Unit],
        readout: bool,
    ) -> Result<(), Failure> {
        for (((name, totals), end), unit) in
            self.names.iter().zip(&self.totals).zip(ends).zip(units)
        {
            if let Some(event) = end {
                self.lines.put(&Line::of(event, name))?;
            }
            self.lines.put(&Line::end(unit.guard(), name, totals, readout))?;
        }
        Ok(())
    }
}

/// Plays a session on units, which have names, and prints their events. Each step is handed on.
/// Hands back what there is to say of each unit at the end.
pub fn print(
    session: &Session,
    names: &[&str],
    units: &mut [&mut dyn Unit],
    readout: bool,
    mut each: impl FnMut(Step) -> Result<(), Failure>,
    out: Out,
) -> Result<Vec<Option<Event>>, Failure> {
    let progress = Progress::beside_lines(session.number_of_calls(), "calls");
    let mut events = Events::begin(names, out);
    let ends = play(session, units, &progress, |step| {
        events.step(&step)?;
        each(step)
    })?;
    events.end(&ends, units, readout)?;
    Ok(ends)
}
