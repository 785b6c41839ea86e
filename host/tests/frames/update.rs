use crate::{agree, random};
use independent::{Command, Frame, Kind, Setting};
use rand::rngs::SmallRng;
use rand::Rng;

/// Writes and reads one Update, with a right and a wrong check and don't-care bits set.
fn tried(rng: &mut SmallRng, settings: [Setting; 8], count: usize) {
    let command = Command::Update(settings);
    let frame = random::framed(&command, count);
    let good = settings.iter().all(|setting| {
        matches!(setting.mode, 0..=2) && matches!(setting.pulse_width, 0 | 10..=500)
    });
    let expected = if good { Ok(frame.clone()) } else { Err(4) };
    assert_eq!(agree::write(&command, count, agree::ROOM), expected);
    let expected = if good { Ok(Frame { command, used: 1 + 3 * count }) } else { Err(4) };
    assert_eq!(agree::read(&frame, count), expected);
    assert_eq!(agree::read(&random::stirred(rng, Kind::Update, count, &frame), count), expected);
    let wrong = (independent::check(&command) + rng.gen_range(1..32)) % 32;
    assert_eq!(agree::read(&independent::compose(&command, count, wrong), count), Err(3));
}

#[test]
fn random_updates_of_every_count() {
    for count in 1..=8 {
        let first = 10_000_000 * count as u64;
        random::seeded(first..first + 130_000, |rng| {
            let mut settings = random::good_update(rng, count);
            if rng.gen() {
                settings[rng.gen_range(0..count)] = random::any_setting(rng);
            }
            tried(rng, settings, count);
        });
    }
}

/// Every value of one variable at every place of every count, the other variables being good.
#[test]
fn every_value_at_every_place() {
    random::seeded(5_000..5_001, |rng| {
        for count in 1..=8 {
            for place in 0..count {
                for pulse_width in 0..512 {
                    let mut settings = random::good_update(rng, count);
                    settings[place].pulse_width = pulse_width;
                    tried(rng, settings, count);
                }
                for pulse_current in 0..128 {
                    let mut settings = random::good_update(rng, count);
                    settings[place].pulse_current = pulse_current;
                    tried(rng, settings, count);
                }
                for mode in 0..4 {
                    let mut settings = random::good_update(rng, count);
                    settings[place].mode = mode;
                    tried(rng, settings, count);
                }
            }
        }
    });
}

/// The greatest sum there is, 8 times 2 + 500 + 127, and the greatest that the bits can hold.
#[test]
fn greatest_sums() {
    random::seeded(6_000..6_001, |rng| {
        for count in 1..=8 {
            for (mode, pulse_width) in [(2, 500), (3, 511)] {
                let mut settings = [Setting::default(); 8];
                settings[..count].fill(Setting { mode, pulse_width, pulse_current: 127 });
                tried(rng, settings, count);
            }
        }
    });
}
