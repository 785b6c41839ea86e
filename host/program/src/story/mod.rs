//! What units did in a session, in lines: the commands with their answers and why these were given,
//! pulses and trips.

mod table;
mod told;
mod totals;

use crate::course::Event;
use crate::failure::{Failure, Out};
use crate::play::{play, Step};
use crate::progress::Progress;
use crate::session::Session;
use crate::unit::Unit;
use table::Table;
pub use totals::Totals;

/// How much is printed at once: the bar of a long run is taken away for it, and put back.
const AT_ONCE: usize = 4096;

/// Plays a session on units, which have names, and tells what they do. Each step is handed on. Hands
/// back what there is to say of each unit at the end.
pub fn tell(
    session: &Session,
    names: &[&str],
    units: &mut [&mut dyn Unit],
    mut each: impl FnMut(Step) -> Result<(), Failure>,
    out: Out,
) -> Result<Vec<Option<Event>>, Failure> {
    let progress = Progress::of_calls(session.number_of_calls());
    let mut story = Story::begin(names, out)?;
    let ends = play(session, units, &progress, |step| {
        story.step(&step, &progress, out)?;
        each(step)
    })?;
    drop(progress);
    story.end(&ends, units, out)?;
    Ok(ends)
}

/// The units by their names, what they have done so far, and what is yet to be printed of it.
struct Story<'a> {
    names: &'a [&'a str],
    table: Table,
    totals: Vec<Totals>,
    waiting: String,
}

impl Story<'_> {
    /// Prints the head of the columns.
    fn begin<'a>(names: &'a [&'a str], out: Out) -> Result<Story<'a>, Failure> {
        let table = Table::of(names.len());
        write!(out, "{}", table.head(names))?;
        let totals = vec![Totals::default(); names.len()];
        Ok(Story { names, table, totals, waiting: String::new() })
    }

    /// Tells the step, if something came about in it.
    fn step(&mut self, step: &Step, progress: &Progress, out: Out) -> Result<(), Failure> {
        for (totals, done) in self.totals.iter_mut().zip(&step.of) {
            totals.add(&done.events);
        }
        self.waiting += &told::step(step, &self.table);
        if self.waiting.len() >= AT_ONCE {
            progress.aside(|| out.write_all(self.waiting.as_bytes()).and_then(|()| out.flush()))?;
            self.waiting.clear();
        }
        Ok(())
    }

    /// Prints the rest, and how the units ended.
    fn end(self, ends: &[Option<Event>], units: &[&mut dyn Unit], out: Out) -> Result<(), Failure> {
        writeln!(out, "{}{}", self.waiting, told::end(ends, &self.table))?;
        for ((name, totals), unit) in self.names.iter().zip(&self.totals).zip(units) {
            let (state, clock) = (unit.guard().state(), unit.guard().clock());
            writeln!(out, "{name}: {state} at clock {clock}; {totals}")?;
        }
        Ok(())
    }
}

#[cfg(test)]
mod tests;
