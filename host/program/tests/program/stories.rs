//! The stories of random sessions, told again from the independent machine: every row of them, and
//! with each refusal its reasons.

use crate::folder::Folder;
use crate::independently::{played, text, toml, Call};
use crate::retold;
use crate::rows::{rows, Row};
use crate::seeded::seeded;
use rand::Rng;
use soak::sessions;
use std::ops::Range;

#[test]
fn one_unit() {
    told_again("stories of one unit", 7_000..7_150, 1);
}

#[test]
fn two_units() {
    told_again("stories of two units", 8_000..8_150, 2);
}

fn told_again(name: &str, seeds: Range<u64>, units: usize) {
    let folder = Folder::new(name);
    let mut met = [0; 11];
    seeded(seeds, |rng| {
        let session = sessions::damaged(rng);
        let tighter = sessions::tighter(rng, session.profile);
        folder.put("s", text(&session, rng.gen()));
        folder.put("p.toml", toml(&session.profile));
        folder.put("q.toml", toml(&tighter));
        let against = ["", "--against q.toml"][units - 1];
        let line = format!("replay s --capacity {} --profile p.toml {against}", session.capacity);
        let profiles = [session.profile, tighter].into_iter().take(units);
        let calls: Vec<Vec<Call>> = profiles.map(|profile| played(&session, profile).0).collect();
        same(&told(&folder, &line, units), &retold::rows(&calls));
        for call in calls.iter().flatten() {
            met[usize::from(call.said.answer)] += 1;
        }
    });
    assert!(met[3..].iter().all(|times| *times > 50), "{met:?} show little");
}

fn told(folder: &Folder, line: &str, units: usize) -> Vec<Row> {
    let ran = folder.line(line);
    assert_eq!((ran.status, ran.err.as_str()), (0, ""), "{line}");
    rows(&ran.out, units)
}

fn same(told: &[Row], should: &[Row]) {
    for (told, should) in told.iter().zip(should) {
        assert_eq!(told, should);
    }
    assert_eq!(told.len(), should.len());
}
