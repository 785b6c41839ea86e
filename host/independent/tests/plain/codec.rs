//! The fast codec against the slow one.

use crate::random::{self, seeded};
use independent::plain::codec::{self, Read, Wrote};
use independent::{Command, Frame, Init, Setting, Single};
use rand::Rng;

/// What the fast reader tells where the slow one does so.
fn expected(slow: Result<Frame, u8>) -> Read {
    match slow {
        Ok(Frame { command, used }) => {
            let ident = command.kind() as u8;
            let read = Read { ident, used, ..Read::default() };
            match command {
                Command::Init(init) => Read { init, ..read },
                Command::Update(settings) => Read { settings, ..read },
                Command::Stop => read,
                Command::Single(single) => Read { single, ..read },
            }
        }
        Err(answer) => Read { answer, ..Read::default() },
    }
}

/// Reads with all five readers.
fn agree(bytes: &[u8], count: usize) -> Read {
    let slow = expected(independent::read(bytes, count));
    assert_eq!(codec::read(bytes, count), slow, "{bytes:02X?} {count}");
    let Read { answer, ident, used, init, settings, single } = slow;
    let told = (answer, ident, used);
    let read = codec::read_init(bytes, count);
    assert_eq!(((read.answer, read.ident, read.used), read.init), (told, init));
    let read = codec::read_update(bytes, count);
    assert_eq!(((read.answer, read.ident, read.used), read.settings), (told, settings));
    let read = codec::read_stop(bytes, count);
    assert_eq!((read.answer, read.ident, read.used), told);
    let read = codec::read_single(bytes, count);
    assert_eq!(((read.answer, read.ident, read.used), read.single), (told, single));
    slow
}

/// Writes to an output of this many bytes.
fn write(command: &Command, count: usize, room: usize) {
    let fill: Vec<u8> = (0xA0..).take(room).collect();
    let (mut slow, mut fast) = (fill.clone(), fill);
    let told = match independent::write(command, count, &mut slow) {
        Ok(used) => Wrote { answer: 0, used },
        Err(answer) => Wrote { answer, used: 0 },
    };
    let wrote = match command {
        Command::Init(init) => codec::write_init(*init, &mut fast),
        Command::Update(settings) => codec::write_update(settings, count, &mut fast),
        Command::Stop => codec::write_stop(&mut fast),
        Command::Single(single) => codec::write_single(*single, &mut fast),
    };
    assert_eq!((wrote, fast), (told, slow), "{command:?} {count} {room}");
}

#[test]
fn frames() {
    let mut answers = [0; 5];
    seeded(0..100_000, |rng| {
        let count = rng.gen_range(1..=8);
        let command = random::command(rng, count);
        let frame = random::frame(rng, &command, count);
        answers[usize::from(agree(&frame, count).answer)] += 1;
        let mut longer = frame.clone();
        longer.push(rng.gen());
        agree(&longer, count);
        agree(&frame, rng.gen_range(0..=9));
        write(&command, count, rng.gen_range(0..=30));
    });
    assert!(answers[0] > 20_000 && answers[4] > 20_000, "{answers:?}");
}

#[test]
fn short_and_damaged_frames() {
    seeded(100_000..110_000, |rng| {
        let count = rng.gen_range(1..=8);
        let command = random::command(rng, count);
        let frame = random::frame(rng, &command, count);
        for length in 0..frame.len() {
            agree(&frame[..length], count);
        }
        for place in 0..frame.len() {
            let mut damaged = frame.clone();
            for bit in 0..8 {
                damaged[place] = frame[place] ^ (1 << bit);
                agree(&damaged, count);
            }
        }
    });
}

#[test]
fn garbage() {
    seeded(200_000..400_000, |rng| {
        let high = [1.0, 0.0, 0.05][rng.gen_range(0..3)];
        let mut bytes: Vec<u8> = (0..rng.gen_range(0..30))
            .map(|_| if rng.gen_bool(high) { rng.gen() } else { rng.gen_range(0..0x80) })
            .collect();
        if let (Some(first), true) = (bytes.first_mut(), rng.gen()) {
            *first |= 0x80;
        }
        agree(&bytes, rng.gen_range(0..=9));
    });
}

/// Every Single with every check, its don't-care bits clear and set.
#[test]
fn every_single() {
    for (first, a) in (0xE0..=0xFF).flat_map(|first| (0..0x80).map(move |a| (first, a))) {
        for (b, c) in (0..0x80u8).flat_map(|b| (0..0x80u8).map(move |c| (b, c))) {
            let frame = [first, a, b, c];
            let slow = slow_single(&frame);
            let fast = codec::read_single(&frame, 1);
            assert_eq!((fast.answer, fast.single), slow, "{frame:02X?}");
        }
    }
}

/// A Single by division, quick enough for them all; `every_value_of_a_single` asks the slow codec.
fn slow_single(frame: &[u8; 4]) -> (u8, Single) {
    let [first, a, b, c] = frame.map(u16::from);
    let (number, width) = (a / 16, a % 4 * 128 + b);
    let single =
        Single { channel_number: number as u8, pulse_width: width, pulse_current: c as u8 };
    if first % 32 != (number + width + c) % 32 {
        (3, Single::default())
    } else if (1..10).contains(&width) || width > 500 {
        (4, Single::default())
    } else {
        (0, single)
    }
}

#[test]
fn every_value_of_a_single() {
    for channel_number in 0..8 {
        for pulse_width in 0..512 {
            for pulse_current in 0..128 {
                let single = Single { channel_number, pulse_width, pulse_current };
                let command = Command::Single(single);
                let frame = independent::compose(&command, 1, independent::check(&command));
                assert_eq!(codec::read(&frame, 1), expected(independent::read(&frame, 1)));
                write(&command, 1, 4);
            }
        }
    }
}

/// Values that no bits hold are written by neither.
#[test]
fn values_too_great() {
    seeded(500_000..600_000, |rng| {
        let great =
            |rng: &mut rand::rngs::SmallRng, good: u32| random::edge_or(rng, &[65_535], 0..=good);
        let init = Init {
            n_factor: great(rng, 9) as u8,
            channel_stim: rng.gen(),
            channel_lf: rng.gen(),
            group_time: great(rng, 40) as u8,
            main_time: great(rng, 2_500) as u16,
        };
        write(&Command::Init(init), 1, 6);
        let Init { n_factor: mode, main_time: pulse_width, group_time, .. } = init;
        let pulse_current = group_time.wrapping_mul(4);
        let single = Single { channel_number: mode, pulse_width: pulse_width / 4, pulse_current };
        write(&Command::Single(single), 1, 4);
        let mut settings = random::settings(rng, 8);
        settings[rng.gen_range(0..8)] = Setting { mode, pulse_width, pulse_current };
        write(&Command::Update(settings), rng.gen_range(0..=9), 25);
    });
}

#[test]
fn replies() {
    for ident in 0..=255 {
        for answer in 0..=255 {
            assert_eq!(codec::reply(ident, answer), independent::reply(ident, answer));
        }
    }
}
