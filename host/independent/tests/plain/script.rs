//! Random calls, most of them valid frames for the box that takes them.

use crate::random;
use independent::plain::machine::BoxRecord;
use independent::{Command, Init, Setting, Single};
use rand::rngs::SmallRng;
use rand::Rng;

#[derive(Clone, Copy, Debug)]
pub enum Call {
    Byte(u8),
    Tick,
}

/// Some calls that a box of this record can well be given.
pub fn calls(rng: &mut SmallRng, record: &BoxRecord) -> Vec<Call> {
    let ticks = match rng.gen_range(0..12) {
        0 => rng.gen_range(100..=700),
        1..=3 => rng.gen_range(1..=60),
        4..=6 => rng.gen_range(1..=16),
        _ => 0,
    };
    if ticks > 0 {
        return vec![Call::Tick; ticks];
    }
    let mut bytes = frame(rng, record);
    match rng.gen_range(0..16) {
        0 => bytes.truncate(rng.gen_range(0..=bytes.len())),
        1 => {
            let place = rng.gen_range(0..bytes.len());
            bytes[place] ^= 1 << rng.gen_range(0..8);
        }
        2 => bytes.insert(rng.gen_range(0..=bytes.len()), rng.gen()),
        3 => bytes.push(rng.gen_range(0..0x80)),
        _ => {}
    }
    let ticked = rng.gen_range(0..6) == 0;
    let mut calls = Vec::new();
    for byte in bytes {
        calls.push(Call::Byte(byte));
        if ticked {
            calls.extend(vec![Call::Tick; rng.gen_range(0..=40)]);
        }
    }
    calls
}

fn frame(rng: &mut SmallRng, record: &BoxRecord) -> Vec<u8> {
    let count = record.run.list.channel_stim.count_ones().max(1) as usize;
    let command = match (rng.gen_range(0..10), record.state) {
        (0, _) => random::command(rng, count),
        (1, _) | (2, 0 | 2) => Command::Init(init(rng)),
        (2..=7, 1) => Command::Update(settings(rng, count)),
        (3..=8, 0) | (8, 1) => Command::Single(single(rng)),
        (_, 2) if rng.gen() => Command::Single(single(rng)),
        _ => Command::Stop,
    };
    random::frame(rng, &command, count)
}

/// An Init whose list is short enough to be run through often; some break a rule.
fn init(rng: &mut SmallRng) -> Init {
    Init {
        n_factor: rng.gen_range(0..=7),
        channel_stim: rng.gen_range(1..=255),
        channel_lf: if rng.gen() { 0 } else { rng.gen() },
        group_time: rng.gen_range(6..=12),
        main_time: rng.gen_range(10..=70),
    }
}

fn settings(rng: &mut SmallRng, count: usize) -> [Setting; 8] {
    let most = rng.gen_range(0..=2);
    std::array::from_fn(|index| {
        let Single { pulse_width, pulse_current, .. } = single(rng);
        if index < count {
            Setting { mode: rng.gen_range(0..=most), pulse_width, pulse_current }
        } else {
            Setting::default()
        }
    })
}

fn single(rng: &mut SmallRng) -> Single {
    Single {
        channel_number: rng.gen_range(0..=7),
        pulse_width: random::edge_or(rng, &[0, 10], 10..=360) as u16,
        pulse_current: random::edge_or(rng, &[0, 1], 1..=99) as u8,
    }
}
