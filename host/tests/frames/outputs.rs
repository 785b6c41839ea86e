//! Output buffers of every length. `agree::write` compares all bytes in and around them.

use crate::{agree, random};
use independent::{Command, Kind, Setting};

#[test]
fn every_length() {
    random::seeded(0..300, |rng| {
        for kind in random::KINDS {
            for count in 1..=8 {
                let command = random::good(rng, kind, count);
                let frame = random::framed(&command, count);
                for room in 0..=agree::ROOM {
                    let expected = if room < frame.len() { Err(16) } else { Ok(frame.clone()) };
                    assert_eq!(agree::write(&command, count, room), expected);
                }
            }
        }
    });
}

/// A value that is not good is told before an output too short.
#[test]
fn every_length_with_a_value_not_good() {
    random::seeded(1_000..1_300, |rng| {
        for count in 1..=8 {
            let mut init = random::good_init(rng);
            init.group_time = 30;
            let mut settings = random::good_update(rng, count);
            settings[count - 1].mode = 3;
            let Command::Single(mut single) = random::good(rng, Kind::Single, 1) else {
                unreachable!("asked for a Single");
            };
            single.pulse_width = 501;
            for room in 0..=agree::ROOM {
                assert_eq!(agree::write(&Command::Init(init), count, room), Err(4));
                assert_eq!(agree::write(&Command::Update(settings), count, room), Err(4));
                assert_eq!(agree::write(&Command::Single(single), count, room), Err(4));
            }
        }
    });
}

#[test]
fn every_length_with_an_entry_past_the_count() {
    for count in 1..8 {
        let mut settings = [Setting::default(); 8];
        settings[count].pulse_current = 1;
        for room in 0..=agree::ROOM {
            assert_eq!(agree::write(&Command::Update(settings), count, room), Err(4));
        }
    }
}
