//! Whatever its numbers are, nothing in a story is wider than its column.

use super::table::Table;
use super::told;
use crate::course::{Decided, Event, Pulse, What};
use crate::field::Field;
use crate::play::{Done, Step};
use crate::reason::{Reason, Trip};
use crate::unit::Call;
use yarrowbell::{Answer, Cause, State, Told};

/// Those of the most words.
const REASONS: [Reason; 7] = [
    Reason::Value { channel: None, field: Field::MainTime, value: 2047 },
    Reason::Value { channel: Some(8), field: Field::PulseWidth, value: 511 },
    Reason::T2 { t2: 55, listed: 0xFF },
    Reason::T1 { t1: 10_235, t2: 10_235, n: 3 },
    Reason::ListRuns { listed: 0xFF },
    Reason::Charge { channel: 8, current: 127, width: 500, largest: 63_499 },
    Reason::Tripped(Some(Trip { clock: u32::MAX, cause: Cause::Watchdog })),
];

/// An Update of eight triplets with 500 µs and 127 mA.
fn update() -> Vec<u8> {
    let mut bytes = vec![0xA8];
    bytes.extend([0x43, 0x74, 0x7F].repeat(8));
    bytes
}

fn event(what: What) -> Event {
    Event { clock: u32::MAX, state: State::Tripped, what }
}

/// All that can come about, at the last clock, in a unit that had this list.
fn done(listed: u8) -> Done {
    let told =
        Told { answer: Answer::WhileTripped, reply: Some(0x40), pulses: [None; 2], trip: None };
    let decided = Decided {
        bytes: update(),
        listed,
        answer: told.answer,
        reply: 0x40,
        reasons: REASONS.to_vec(),
    };
    let events = vec![
        What::Dropped(update()),
        What::Decided(decided),
        What::Pulse(Pulse { channel: 8, width: u16::MAX, current: u16::MAX }),
        What::Trip(Cause::Watchdog),
        What::Stray(0x7F),
    ];
    Done { told, state: State::Tripped, events: events.into_iter().map(event).collect() }
}

/// The story of units that had these lists, without its head.
fn story(lists: &[u8]) -> String {
    let table = Table::of(lists.len());
    let of = lists.iter().map(|listed| done(*listed)).collect();
    let ends = vec![Some(event(What::Unfinished(update()))); lists.len()];
    let step = Step { call: Call::Byte(0x7F), clock: u32::MAX, of };
    told::step(&step, &table) + &told::end(&ends, &table)
}

#[test]
fn one_unit() {
    let story = story(&[0xFF]);
    assert!(story.starts_with("4294967295 429496729.5  > A8 43 74 7F "), "{story}");
    for line in story.lines() {
        assert!(line.chars().count() <= 100, "{line}");
    }
    let words = |text: &str| text.split_whitespace().collect::<Vec<&str>>().join(" ");
    for reason in REASONS {
        assert!(words(&story).contains(&words(&reason.to_string())), "{reason}\n{story}");
    }
}

/// Both do the same, so that both columns have the same lines.
#[test]
fn two_units() {
    let story = story(&[0xFF; 2]);
    for line in story.lines() {
        assert!(line.chars().count() <= 24 + 42 + 2 + 42, "{line}");
    }
    let cells: Vec<&str> = story.lines().skip_while(|line| !line.contains("dropped")).collect();
    for line in &cells {
        let cut = |from: usize, size: usize| -> String {
            line.chars().skip(from).take(size).collect::<String>().trim_end().to_owned()
        };
        assert_eq!([cut(24, 42), cut(66, 2)], [cut(68, 42), String::new()], "{line}");
    }
    assert!(cells.len() > 20, "{story}");
}

/// Channels are named by a list that all units had, and that has as many as the Update.
#[test]
fn channels() {
    let named = |lists| story(lists).contains("channel 8 triplet 500 µs 127 mA");
    assert!(named(&[0xFF]) && named(&[0xFF; 2]));
    for lists in [&[0x7F][..], &[0x00], &[0xFF, 0x00], &[0x7F, 0xFF]] {
        assert!(!named(lists) && story(lists).contains("triplet 500 µs 127 mA;"), "{lists:?}");
    }
}
