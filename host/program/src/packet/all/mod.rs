//! `yarrowbell packet read --all`

mod table;
mod totals;

use super::generation::Generation;
use super::json;
use super::reading::Reading;
use crate::failure::{Failure, Out};
use crate::progress::Progress;
use table::Table;
use totals::Totals;
use yarrowbell::Answer;

/// Prints all packets, and says whether every answer is 0: behind the last packet there is nothing
/// then.
pub fn print<G: Generation>(bytes: &[u8], as_json: bool, out: Out) -> Result<bool, Failure> {
    let progress = Progress::beside_lines(bytes.len() as u64, "bytes");
    let (table, mut totals) = (Table::of(bytes), Totals::default());
    let mut good = true;
    if !as_json {
        writeln!(out, "{}", table.head())?;
    }
    for found in G::packets(bytes) {
        progress.done(found.place.end as u64);
        let reading = Reading::<G>::of(bytes, found);
        good &= reading.answer() == Answer::Done;
        totals.add(&reading);
        if as_json {
            json::print(&reading, out)?;
        } else {
            table.print(&reading, out)?;
        }
    }
    drop(progress);
    if !as_json {
        writeln!(out, "\n{totals}")?;
    }
    Ok(good)
}
