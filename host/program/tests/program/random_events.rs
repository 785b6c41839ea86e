//! The events of random sessions, compared with the independent machine.

use crate::folder::Folder;
use crate::independently::{played, text, toml, Call};
use crate::objects::hex;
use crate::seeded::seeded;
use crate::table::{object, Table};
use rand::Rng;
use serde_json::{Map, Value};
use soak::sessions;

/// The same file beside the story, the calls and the JSON, and the JSON says the same; all of it is
/// what the independent machine does.
#[test]
fn random_sessions() {
    let folder = Folder::new("random_events");
    let [mut pulses, mut trips, mut unfinished] = [0, 0, 0];
    seeded(20_000..20_100, |rng| {
        let session = sessions::session(rng);
        folder.put("s", text(&session, rng.gen()));
        folder.put("p.toml", toml(&session.profile));
        let line = format!("replay s --profile p.toml --capacity {} ", session.capacity);
        let beside = |words: &str| {
            let ran = folder.line(&format!("{line} --readout --events e.csv {words}"));
            assert_eq!((ran.status, ran.err.as_str()), (0, ""));
            (folder.text("e.csv"), ran.out)
        };
        let (csv, _) = beside("");
        assert_eq!(beside("--calls").0, csv);
        let (same, json) = beside("--json");
        assert_eq!(same, csv);
        let table = Table::of_csv(&csv);
        assert_eq!(Table::of_json(&json, &table.head), table);
        let (calls, readout) = played(&session, session.profile);
        let mut unit = Expected::new("unit", &calls);
        calls.iter().for_each(|call| unit.call(call));
        unit.end(session.end, &readout);
        agree(&table, &unit.rows);
        pulses += unit.totals[1];
        trips += unit.totals[2];
        unfinished += usize::from(!unit.frame.is_empty());
    });
    assert!(pulses > 1_500 && trips > 80, "{pulses} pulses and {trips} trips show little");
    assert!(unfinished > 3, "{unfinished} unfinished frames show little");
}

#[test]
fn random_pairs() {
    let folder = Folder::new("random_pairs_of_events");
    let mut apart = 0;
    seeded(21_000..21_080, |rng| {
        let session = sessions::session(rng);
        let profiles = [session.profile, sessions::tighter(rng, session.profile)];
        folder.put("s", text(&session, rng.gen()));
        folder.put("p.toml", toml(&profiles[0]));
        folder.put("q.toml", toml(&profiles[1]));
        let line = format!("replay s --profile p.toml --capacity {} ", session.capacity);
        let ran = folder.line(&(line + "--against q.toml --json --readout --events e.csv"));
        assert_eq!((ran.status, ran.err.as_str()), (0, ""));
        let table = Table::of_csv(&folder.text("e.csv"));
        let (events, differences) = last_line(&ran.out);
        assert_eq!(Table::of_json(events, &table.head), table);
        let [(first, one), (second, other)] = profiles.map(|profile| played(&session, profile));
        let mut units = [Expected::new("first", &first), Expected::new("second", &second)];
        let mut rows = Vec::new();
        for calls in first.iter().zip(&second) {
            for (unit, call) in units.iter_mut().zip([calls.0, calls.1]) {
                unit.call(call);
                rows.append(&mut unit.rows);
            }
        }
        for (unit, readout) in units.iter_mut().zip([one, other]) {
            unit.end(session.end, &readout);
            rows.append(&mut unit.rows);
        }
        agree(&table, &rows);
        apart += usize::from(units[0].totals[1] != units[1].totals[1]);
        differ(&differences, &units, &first, &second);
    });
    assert!(apart > 20, "{apart} pairs apart show little");
}

/// The lines before the last, and the last.
fn last_line(json: &str) -> (&str, Map<String, Value>) {
    let end = json.trim_end().rfind('\n').map_or(0, |at| at + 1);
    (&json[..end], object(&json[end..]))
}

/// The counts of the report are those of the calls. A trip that both have counts for none.
fn differ(counts: &Map<String, Value>, units: &[Expected; 2], first: &[Call], second: &[Call]) {
    let both = || first.iter().zip(second);
    let said = |call: &Call| (call.said.answer, call.said.reply);
    let answers = both().filter(|(one, other)| said(one) != said(other)).count();
    let alone = both().filter(|(one, other)| one.pulse() != other.pulse());
    let only_first = alone.clone().filter(|(one, _)| one.pulse().is_some()).count();
    let only_second = alone.filter(|(_, other)| other.pulse().is_some()).count();
    assert_eq!(counts["event"], "differences");
    assert_eq!(counts["answers"], answers);
    assert_eq!(counts["pulses_only_first"], only_first);
    assert_eq!(counts["pulses_only_second"], only_second);
    let trips = ["trips_only_first", "trips_only_second"].map(|key| counts[key].as_i64());
    let [one, other] = trips.map(|count| count.expect("a number"));
    assert_eq!(one - other, units[0].totals[2] as i64 - units[1].totals[2] as i64);
    // The second profile is nowhere looser.
    for key in ["looser", "sentence_1_broken_at", "sentence_2_broken_at"] {
        assert_eq!(counts[key], Value::Null, "{key}");
    }
    assert_eq!(
        counts["from_clock"].is_null(),
        answers + only_first + only_second == 0 && one + other == 0
    );
}

const COLUMNS: &str = "clock ms unit event bytes command answer reply channel width_us current_ma \
                       cause state commands pulses trips readout";

/// The table has these rows in the columns above, and words wherever it has numbers.
fn agree(table: &Table, rows: &[Vec<String>]) {
    assert_eq!(table.rows.len(), rows.len());
    for (row, should) in rows.iter().enumerate() {
        assert_eq!(table.cells(row, COLUMNS), *should);
        let cells = "event command command_words answer answer_words cause cause_words reason";
        let [event, command, command_words, answer, answer_words, cause, cause_words, reason] =
            table.cells(row, cells)[..]
        else {
            panic!("eight cells")
        };
        assert!(command_words.is_empty() || command_words.starts_with(command));
        assert_eq!(command_words.is_empty(), event != "command");
        assert_eq!(answer_words.is_empty(), answer.is_empty());
        let number = ["", "limit", "watchdog"].iter().position(|words| *words == cause_words);
        assert_eq!(number, Some(cause.parse().unwrap_or(0)));
        assert_eq!(!reason.is_empty(), event == "command" && answer != "0");
    }
}

/// What a unit does, by the independent machine's calls.
struct Expected {
    unit: &'static str,
    frame: Vec<u8>,
    state: &'static str,
    /// Commands, pulses and trips.
    totals: [usize; 3],
    rows: Vec<Vec<String>>,
}

impl Expected {
    fn new(unit: &'static str, calls: &[Call]) -> Expected {
        let state = calls.last().map_or("idle", |call| call.state);
        Expected { unit, frame: Vec::new(), state, totals: [0; 3], rows: Vec::new() }
    }

    /// A row with these cells behind the event, up to the cause.
    fn row(&mut self, clock: u32, event: &str, cells: [String; 8], state: &str) {
        let ms = format!("{}.{}", clock / 10, clock % 10);
        let front = [clock.to_string(), ms, self.unit.to_owned(), event.to_owned()];
        let back = [state, "", "", "", ""].map(str::to_owned);
        self.rows.push([&front[..], &cells, &back].concat());
    }

    fn call(&mut self, call: &Call) {
        let state = call.state;
        let none = String::new;
        if let Some(byte) = call.byte {
            if byte >= 0x80 && !self.frame.is_empty() {
                let cells = frame(&std::mem::take(&mut self.frame));
                self.row(call.clock, "dropped", cells, state);
            }
            let answer = call.said.answer;
            self.frame.push(byte);
            if answer != 1 {
                let bytes = std::mem::take(&mut self.frame);
                let mut cells = frame(&bytes);
                cells[2] = answer.to_string();
                if answer == 2 {
                    cells[1] = none();
                    self.row(call.clock, "stray", cells, state);
                } else {
                    cells[3] = hex(&[call.said.reply]);
                    self.totals[0] += 1;
                    self.row(call.clock, "command", cells, state);
                }
            }
        }
        if let Some(pulse) = call.pulse() {
            let mut cells = std::array::from_fn(|_| none());
            cells[4] = pulse.channel.to_string();
            cells[5] = pulse.width.to_string();
            cells[6] = pulse.current.to_string();
            self.totals[1] += 1;
            self.row(call.clock, "pulse", cells, state);
        }
        if let Some(cause) = call.trip {
            let mut cells = std::array::from_fn(|_| none());
            cells[7] = cause.to_string();
            self.totals[2] += 1;
            self.row(call.clock, "trip", cells, state);
        }
    }

    fn end(&mut self, clock: u32, readout: &[u8]) {
        if !self.frame.is_empty() {
            self.row(clock, "unfinished", frame(&self.frame), self.state);
        }
        self.row(clock, "end", std::array::from_fn(|_| String::new()), self.state);
        let last = self.rows.last_mut().expect("the end");
        for (cell, total) in last[13..].iter_mut().zip(self.totals) {
            *cell = total.to_string();
        }
        last[16] = hex(readout);
    }
}

/// The cells of a frame's bytes and its command.
fn frame(bytes: &[u8]) -> [String; 8] {
    let mut cells = std::array::from_fn(|_| String::new());
    cells[0] = hex(bytes);
    cells[1] = ["Init", "Update", "Stop", "Single"][usize::from(bytes[0] >> 5 & 3)].to_owned();
    cells
}
