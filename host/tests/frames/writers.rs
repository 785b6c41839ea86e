//! The writers on every value of each field, those outside its bits too.

use crate::{agree, random};
use independent::{Command, Init, Kind, Setting, Single};

fn wrote(command: Command, count: usize) -> bool {
    match agree::write(&command, count, agree::ROOM) {
        Ok(_) => true,
        Err(answer) => {
            assert_eq!(answer, 4);
            false
        }
    }
}

#[test]
fn every_value_of_each_init_field() {
    random::seeded(0..20, |rng| {
        let init = random::good_init(rng);
        for value in 0..=255 {
            let given = |init: Init| wrote(Command::Init(init), 1);
            assert_eq!(given(Init { n_factor: value, ..init }), value <= 7);
            assert_eq!(given(Init { channel_stim: value, ..init }), value != 0);
            assert!(given(Init { channel_lf: value, ..init }));
            assert_eq!(given(Init { group_time: value, ..init }), (3..=29).contains(&value));
        }
        for main_time in 0..=65_535 {
            let good = (4..=2045).contains(&main_time);
            assert_eq!(wrote(Command::Init(Init { main_time, ..init }), 1), good);
        }
    });
}

#[test]
fn every_value_of_each_single_field() {
    random::seeded(1_000..1_020, |rng| {
        let Command::Single(single) = random::good(rng, Kind::Single, 1) else {
            unreachable!("asked for a Single");
        };
        let given = |single: Single| wrote(Command::Single(single), 1);
        for value in 0..=255 {
            assert_eq!(given(Single { channel_number: value, ..single }), value <= 7);
            assert_eq!(given(Single { pulse_current: value, ..single }), value <= 127);
        }
        for pulse_width in 0..=65_535 {
            let good = pulse_width == 0 || (10..=500).contains(&pulse_width);
            assert_eq!(given(Single { pulse_width, ..single }), good);
        }
    });
}

/// At every place of every count.
#[test]
fn every_value_of_each_update_field() {
    random::seeded(2_000..2_001, |rng| {
        for count in 1..=8 {
            for place in 0..count {
                let settings = random::good_update(rng, count);
                let given = |setting: Setting| {
                    let mut changed = settings;
                    changed[place] = setting;
                    wrote(Command::Update(changed), count)
                };
                let setting = settings[place];
                for value in 0..=255 {
                    assert_eq!(given(Setting { mode: value, ..setting }), value <= 2);
                    assert_eq!(given(Setting { pulse_current: value, ..setting }), value <= 127);
                }
                for pulse_width in 0..=65_535 {
                    let good = pulse_width == 0 || (10..=500).contains(&pulse_width);
                    assert_eq!(given(Setting { pulse_width, ..setting }), good);
                }
            }
        }
    });
}

/// A channel that is not listed has no setting, not even a good one.
#[test]
fn entries_past_the_count() {
    random::seeded(3_000..3_020, |rng| {
        for count in 1..8 {
            let settings = random::good_update(rng, count);
            assert!(wrote(Command::Update(settings), count));
            for place in count..8 {
                let given = |setting: Setting| {
                    let mut changed = settings;
                    changed[place] = setting;
                    wrote(Command::Update(changed), count)
                };
                for value in 1..=255 {
                    assert!(!given(Setting { mode: value, ..Setting::default() }));
                    assert!(!given(Setting { pulse_current: value, ..Setting::default() }));
                }
                for pulse_width in (1..=512).chain([513, 1_024, 4_096, 32_768, 65_280, 65_535]) {
                    assert!(!given(Setting { pulse_width, ..Setting::default() }));
                }
            }
        }
    });
}

/// Sums that pass the 16 bits of a Main_Time or a Width: refused, and nothing overflows.
#[test]
fn greatest_numbers() {
    let init = Init {
        n_factor: 255,
        channel_stim: 255,
        channel_lf: 255,
        group_time: 255,
        main_time: 65_535,
    };
    let setting = Setting { mode: 255, pulse_width: 65_535, pulse_current: 255 };
    let single = Single { channel_number: 255, pulse_width: 65_535, pulse_current: 255 };
    assert!(!wrote(Command::Init(init), 1));
    assert!(!wrote(Command::Single(single), 1));
    for count in 1..=8 {
        assert!(!wrote(Command::Update([setting; 8]), count));
    }
}
