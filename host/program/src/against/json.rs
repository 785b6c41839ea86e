//! The report of two units for scripts.

use super::{Against, Tally};
use crate::failure::{Failure, Out};
use crate::json;
use serde::Serialize;
use yarrowbell::Profile;

/// The keys. What there is not is null.
#[derive(Serialize)]
struct Line {
    event: &'static str,
    /// The differences, counted as in the text.
    answers: u64,
    pulses_only_first: u64,
    pulses_only_second: u64,
    trips_only_first: u64,
    trips_only_second: u64,
    /// The clocks of the first difference and of the last.
    from_clock: Option<u32>,
    to_clock: Option<u32>,
    /// By which number the second profile is looser.
    looser: Option<String>,
    /// The clocks at which demand 3's sentences are broken first; null if they held.
    sentence_1_broken_at: Option<u32>,
    sentence_2_broken_at: Option<u32>,
}

impl Against {
    /// Prints the report of two units of these profiles in a line.
    pub fn print(mut self, first: &Profile, second: &Profile, out: Out) -> Result<(), Failure> {
        self.end_clock();
        let [pulses_only_first, pulses_only_second] = self.pulses.each_ref().map(Tally::count);
        let [trips_only_first, trips_only_second] = self.trips.each_ref().map(Tally::count);
        let line = Line {
            event: "differences",
            answers: self.answers.count(),
            pulses_only_first,
            pulses_only_second,
            trips_only_first,
            trips_only_second,
            from_clock: self.between.map(|(from, _)| from),
            to_clock: self.between.map(|(_, to)| to),
            looser: second.looser_than(first).map(|looser| looser.to_string()),
            sentence_1_broken_at: self.unreleased(),
            sentence_2_broken_at: self.broken,
        };
        json::line(&line, out)
    }
}
