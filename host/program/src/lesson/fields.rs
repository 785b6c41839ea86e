//! `yarrowbell lesson fields`

use super::page::{Page, Theorem};
use super::{wrong, Drawn};
use crate::course::{Courses, Event, Pulse, What};
use crate::failure::{Failure, Out};
use crate::hex;
use crate::play::play;
use crate::progress::Progress;
use yarrowbell::{records, Body, Guard, Profile};

const PAGE: Page = Page {
    title: "fields",
    mistake: "a trace is read by guessed fields, and shows 41,200 mA, which are the clock.",
    code: include_str!("wrong/fields.rs"),
    units: "\
The unit is the proved one, with a ring that has room for the whole session. Its trace is read by
the guess and by document 01.",
    input: "\
0 90 01 20 00 31 4C       # Init of channels 1 and 3, t1 103 ms
5 BA 01 48 28 02 2C 1E    # Update of their settings, single pulses
41200 end",
    seen: "\
The last record is 40 mA at clock 41,200; the guess makes 41,200 mA of it, where no channel can have
more than 127. It takes the clock's two lower bytes for the current and its two upper bytes for the
width. That its channel is right makes it look good.",
    source: "document 01",
    rule: "\
One byte of kind, then the body that the kind fixes, numbers little endian:
- 02: clock 4, channel 1 (1 to 8), width 2, current 1
A record is known by its kind byte alone.",
    proved: &[
        Theorem {
            name: "demand2",
            file: "crates/demands/proofs/Demand2.antt",
            says: "a readout is the longest fitting tail of the machine's records, so laid out.",
        },
        Theorem {
            name: "split_is_row",
            file: "crates/trace/proofs/Theorems.antt",
            says: "bytes pass for a trace exactly if they are a row of whole known records.",
        },
        Theorem {
            name: "claim",
            file: "crates/demands/proofs/Computed.antt",
            says: "the sixteen cases, among them case 13: the 27 bytes of three pulses.",
        },
    ],
};

pub fn teach(out: Out) -> Result<Drawn, Failure> {
    let session = PAGE.begin(out)?;
    let mut unit = Guard::new(Profile::LOOSEST, 4096).expect("profile and capacity are good");
    let mut courses = Courses::of(1);
    let progress = Progress::of_calls(session.number_of_calls());
    play(&session, &mut [&mut unit], &progress, |step| {
        courses.add(step);
        Ok(())
    })?;
    drop(progress);
    let done = courses.0.remove(0);

    let trace = unit.trace();
    let records = of_pulses(&trace);
    line(["record", "by the guess", "by document 01"], out)?;
    for Read { bytes, clock, pulse } in &records[records.len() - 4..] {
        let guess = spelt(wrong::fields::pulse(bytes));
        line([&hex::spelt(bytes), &guess, &format!("clock {clock}, {}", spelt(*pulse))], out)?;
    }
    let both = records.iter().zip(released(&done));
    let right = both.filter(|(record, is)| (record.clock, record.pulse) == *is).count();
    let all = records.len();
    writeln!(out, "\nThe trace has {all} pulses. Read by document 01, {right} are what the unit")?;
    writeln!(out, "released: same clock, channel, width, current.")?;
    PAGE.end(out)?;

    Ok(Drawn::Courses {
        titles: ["wrong: the trace by guessed fields", "proved: what the unit released"],
        courses: Courses(vec![guessed(&done, &records), done]),
        end: session.end(),
    })
}

/// What the unit did, but with the pulses that are guessed.
fn guessed(done: &[Event], records: &[Read]) -> Vec<Event> {
    let mut records = records.iter();
    let what = |is: &What| match is {
        What::Pulse(_) => {
            let record = records.next().expect("the ring had room for all pulses");
            What::Pulse(wrong::fields::pulse(record.bytes))
        }
        other => other.clone(),
    };
    let whats: Vec<What> = done.iter().map(|event| &event.what).map(what).collect();
    done.iter().zip(whats).map(|(event, what)| Event { what, ..event.clone() }).collect()
}

/// The pulses, each with its clock.
fn released(done: &[Event]) -> impl Iterator<Item = (u32, Pulse)> + '_ {
    done.iter().filter_map(|event| match event.what {
        What::Pulse(pulse) => Some((event.clock, pulse)),
        _ => None,
    })
}

/// A pulse's record, and what it says by document 01's layout.
struct Read<'a> {
    bytes: &'a [u8],
    clock: u32,
    pulse: Pulse,
}

/// The records of pulses in a trace.
fn of_pulses(trace: &[u8]) -> Vec<Read<'_>> {
    let records = records(trace).expect("a readout has whole records");
    let pulses = records.into_iter().filter_map(|record| match record.body {
        Body::Pulse { channel, width, current } => {
            let pulse = Pulse { channel, width, current: current.into() };
            let bytes = &trace[record.at..record.at + record.body.length()];
            Some(Read { bytes, clock: record.clock, pulse })
        }
        _ => None,
    });
    pulses.collect()
}

fn spelt(pulse: Pulse) -> String {
    let Pulse { channel, width, current } = pulse;
    format!("channel {channel}: {width} µs, {current} mA")
}

fn line([record, guess, right]: [&str; 3], out: Out) -> Result<(), Failure> {
    Ok(writeln!(out, "{record:29}{guess:29}{right}")?)
}
