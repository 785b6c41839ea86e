//! Records, parts, rings and clocks that a call refuses: it tells the number, and all stays.

use crate::naive;
use crate::played::Played;
use crate::random::{self, seeded};
use crate::script::{calls, Call};
use independent::plain::machine::{BoxRecord, Said};
use independent::Part;
use rand::rngs::SmallRng;
use rand::Rng;

/// A box after a random history.
fn played(rng: &mut SmallRng) -> Played {
    let profile = random::profile(rng);
    let mut played = Played::random(rng, profile);
    for _ in 0..rng.gen_range(1..12) {
        for call in calls(rng, &played.record) {
            match call {
                Call::Byte(byte) => played.byte(byte),
                Call::Tick => played.tick(),
            };
        }
    }
    played
}

/// All three calls are refused with this number.
fn refused(answer: u8, record: &BoxRecord, buffer: &[u8], at: Part, byte: u8) {
    let said = Said { answer, ..Said::default() };
    let (mut lent, mut changed) = (buffer.to_vec(), *record);
    assert_eq!(changed.byte(&mut lent, at, byte), said);
    assert_eq!(changed.tick(&mut lent, at), said);
    let mut out = [9; 4_096];
    assert_eq!(changed.read_out(&lent, at, &mut out), Err(answer));
    assert_eq!(out, [9; 4_096]);
    assert_eq!((changed, &lent[..]), (*record, buffer));
}

/// Any number, near a bound of document 01 or near what it was.
fn number(rng: &mut SmallRng, was: u64) -> u64 {
    let bounds = [0, 1, 2, 3, 4, 9, 10, 15, 16, 25, 29, 127, 128, 255, 500, 2045, 10_235, 63_500];
    match rng.gen_range(0..6) {
        0 => rng.gen(),
        1 => bounds[rng.gen_range(0..bounds.len())] + rng.gen_range(0..=1),
        2 => was.wrapping_add(1),
        3 => was.wrapping_sub(1),
        4 => was ^ 1 << rng.gen_range(0..16),
        _ => rng.gen_range(0..=30),
    }
}

/// Changes one number of the record.
fn change(rng: &mut SmallRng, record: &mut BoxRecord) {
    let channel = rng.gen_range(0..8);
    macro_rules! changed {
        ($($place:expr => $kind:ty),* $(,)?) => {{
            let places = [$(stringify!($place)),*].len();
            let mut left = rng.gen_range(0..places);
            $(
                if left == 0 {
                    $place = number(rng, $place as u64) as $kind;
                    return;
                }
                left -= 1;
            )*
            assert_eq!(left, 0);
        }};
    }
    let place = rng.gen_range(0..25);
    changed! {
        record.profile.currents[channel] => u8,
        record.profile.widths[channel] => u16,
        record.profile.charge => u32,
        record.profile.shortest => u32,
        record.profile.watchdog => u32,
        record.clock => u32,
        record.hold_a => u8,
        record.hold_b => u8,
        record.state => u16,
        record.run.list.n_factor => u8,
        record.run.list.channel_stim => u8,
        record.run.list.channel_lf => u8,
        record.run.list.group_time => u8,
        record.run.list.main_time => u16,
        record.run.settings[channel].mode => u8,
        record.run.settings[channel].pulse_width => u16,
        record.run.settings[channel].pulse_current => u8,
        record.run.waits => u32,
        record.run.waiting[channel].mode => u8,
        record.run.waiting[channel].pulse_width => u16,
        record.run.waiting[channel].pulse_current => u8,
        record.run.position => u16,
        record.run.cycle => u32,
        record.run.watch => u32,
        record.partial.bytes[place] => u8,
        record.partial.len => usize,
        record.partial.kept => usize,
        record.ring.capacity => usize,
        record.ring.start => usize,
        record.ring.used => usize,
    }
}

#[test]
fn records() {
    let (mut good, mut bad) = (0, 0);
    seeded(0..1_500, |rng| {
        let played = played(rng);
        for _ in 0..1_000 {
            let mut record = played.record;
            for _ in 0..=rng.gen_range(0..8) / 7 {
                change(rng, &mut record);
            }
            assert_eq!(record.good(), naive::good(&record), "{record:?}");
            if record.good() {
                good += 1;
            } else {
                bad += 1;
                let at = if rng.gen() { played.at } else { Part { offset: 1, size: 0 } };
                if bad % 8 == 0 {
                    refused(12, &record, &played.buffer, at, rng.gen());
                }
            }
        }
    });
    println!("{good} good, {bad} not");
    assert!(good > 100_000 && bad > 100_000, "{good} good, {bad} not");
}

#[test]
fn parts() {
    seeded(10_000..11_000, |rng| {
        let Played { record, mut buffer, at, .. } = played(rng);
        let Part { offset, size } = at;
        for at in [
            Part { offset: offset + 7, size },
            Part { offset: usize::MAX, size },
            Part { offset, size: size - 1 },
            Part { offset, size: size + 1 },
            Part { offset: usize::MAX - 3, size: usize::MAX },
        ] {
            refused(13, &record, &buffer, at, rng.gen());
        }
        buffer.truncate(offset + size - 1);
        refused(13, &record, &buffer, at, rng.gen());
    });
}

#[test]
fn rings() {
    let mut seen = 0;
    seeded(20_000..22_000, |rng| {
        let Played { record, mut buffer, at, .. } = played(rng);
        if record.ring.used == 0 {
            return;
        }
        let place = (record.ring.start + rng.gen_range(0..record.ring.used)) % at.size;
        buffer[at.offset + place] = rng.gen();
        if let Err(answer) = record.ring.ready(&buffer, at) {
            refused(answer, &record, &buffer, at, rng.gen());
            seen += 1;
        }
    });
    assert!(seen > 100, "{seen}");
}

/// "A clock at its end (tick only)".
#[test]
fn clocks() {
    seeded(30_000..31_000, |rng| {
        let Played { mut record, mut buffer, at, .. } = played(rng);
        record.clock = u32::MAX - 1;
        assert_eq!(record.tick(&mut buffer, at).answer, 0);
        let (kept, lent) = (record, buffer.clone());
        assert_eq!(record.tick(&mut buffer, at), Said { answer: 15, ..Said::default() });
        assert_eq!((record, &buffer), (kept, &lent));
        assert!(record.byte(&mut buffer, at, 0xC0).answer == 0);
        buffer[at.offset + record.ring.start] = 4;
        assert_eq!(record.tick(&mut buffer, at), Said { answer: 14, ..Said::default() });
    });
}

#[test]
fn outputs() {
    seeded(40_000..41_000, |rng| {
        let played = played(rng);
        let used = played.record.ring.used;
        let mut out = vec![9; used + 2];
        for room in [0, used / 2, used.saturating_sub(1)] {
            if room < used {
                let told = played.record.read_out(&played.buffer, played.at, &mut out[..room]);
                assert_eq!((told, &out), (Err(16), &vec![9; used + 2]));
            }
        }
        let told = played.record.read_out(&played.buffer, played.at, &mut out);
        assert_eq!((told, &out[used..]), (Ok(used), &[9, 9][..]));
        assert_eq!(out[..used], played.read_out());
    });
}
