//! Reasons for the answers of random sessions.

use super::*;
use crate::course::{Decided, Watcher, What};
use crate::unit::{Call, Unit};
use rand::rngs::SmallRng;
use rand::{Rng, SeedableRng};
use soak::sessions::{self, Session};
use std::cmp::Ordering;
use std::collections::BTreeMap;
use yarrowbell::raw::BoxRecord;
use yarrowbell::{Guard, Profile};

/// "A finished frame is tested: 3; 10; 4; 6 or 7; 5; 8; 9."
const TESTED: [Answer; 8] = [
    Answer::WrongCheck,
    Answer::WhileTripped,
    Answer::NotGood,
    Answer::NoList,
    Answer::ListRuns,
    Answer::Timing,
    Answer::InHold,
    Answer::OverLimit,
];

/// A command is given the answer of the first test for which there is a reason, and these are its
/// reasons; a command for which there is none is carried out.
#[test]
fn the_first_broken_rule_is_the_answer() {
    let mut met: BTreeMap<String, usize> = BTreeMap::new();
    for seed in 0..2_000 {
        let mut rng = SmallRng::seed_from_u64(seed);
        let session = sessions::damaged(&mut rng);
        let tighter = sessions::tighter(&mut rng, session.profile);
        let profile = if rng.gen() { session.profile } else { tighter };
        play(&session, profile, |before, decided| {
            let Decided { bytes, answer, reasons, .. } = decided;
            let found = TESTED.map(|answer| (answer, of(before, bytes, answer)));
            let first = found.iter().find(|(_, reasons)| !reasons.is_empty());
            assert_eq!(*answer, first.map_or(Answer::Done, |(answer, _)| *answer), "{decided:?}");
            assert_eq!(reasons.is_empty(), *answer == Answer::Done, "{decided:?}");
            for reason in reasons {
                assert!(reason.answer() == *answer && reason.holds(), "{decided:?}");
                assert!(!reason.to_string().contains(';'), "{reason}");
                *met.entry(kind(reason)).or_default() += 1;
            }
        });
    }
    for kind in KINDS {
        let times = met.remove(kind).unwrap_or(0);
        assert!(times > 20, "{kind}: {times} times show little");
    }
    assert!(met.is_empty(), "{met:?}");
}

const KINDS: [&str; 22] = [
    "check",
    "Channel_Stim",
    "Group_Time",
    "Main_Time",
    "Mode of a channel",
    "Pulse_Width of a channel",
    "t2 for A",
    "t2 for B",
    "t2 for A and B",
    "t1, n = 1",
    "t1, n = 2",
    "t1, n = 3",
    "no list",
    "list runs",
    "hold of A",
    "hold of B",
    "shortest t1",
    "current",
    "width",
    "charge",
    "tripped by limit",
    "tripped by watchdog",
];

fn kind(reason: &Reason) -> String {
    let name = match *reason {
        Reason::Check { .. } => "check",
        Reason::Value { channel: None, field, .. } => field.name(),
        Reason::Value { field, .. } => return format!("{} of a channel", field.name()),
        Reason::T2 { listed, .. } => match Module::A.count(listed).cmp(&Module::B.count(listed)) {
            Ordering::Greater => "t2 for A",
            Ordering::Less => "t2 for B",
            Ordering::Equal => "t2 for A and B",
        },
        Reason::T1 { n, .. } => return format!("t1, n = {n}"),
        Reason::NoList => "no list",
        Reason::ListRuns { .. } => "list runs",
        Reason::Hold { module: Module::A, .. } => "hold of A",
        Reason::Hold { module: Module::B, .. } => "hold of B",
        Reason::Shortest { .. } => "shortest t1",
        Reason::Current { .. } => "current",
        Reason::Width { .. } => "width",
        Reason::Charge { .. } => "charge",
        Reason::Tripped(None) => "tripped, and nobody saw it",
        Reason::Tripped(Some(Trip { cause, .. })) => return format!("tripped by {cause}"),
    };
    name.to_owned()
}

/// Plays a session, and hands on each command that is decided, with the box before its last byte.
fn play(session: &Session, profile: Profile, mut each: impl FnMut(&BoxRecord, &Decided)) {
    let mut guard = Guard::new(profile, session.capacity).expect("both are good");
    let mut watcher = Watcher::default();
    let mut sent = session.sent.iter().peekable();
    loop {
        let call = match sent.next_if(|(clock, _)| *clock == guard.clock()) {
            Some((_, byte)) => Call::Byte(*byte),
            None if guard.clock() < session.end => Call::Tick,
            None => break,
        };
        let before = *guard.record();
        let told = guard.call(call);
        for event in watcher.see(call, &before, &told, &guard) {
            if let What::Decided(decided) = &event.what {
                each(&before, decided);
            }
        }
    }
}
