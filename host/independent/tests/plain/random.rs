//! Random commands, frames and profiles.

pub use crate::seeded::seeded;
use independent::plain::machine::Profile;
use independent::{Command, Init, Setting, Single};
use rand::rngs::SmallRng;
use rand::Rng;
use std::ops::RangeInclusive;

/// One time in four one of the edges.
pub fn edge_or(rng: &mut SmallRng, edges: &[u32], range: RangeInclusive<u32>) -> u32 {
    if rng.gen_range(0..4) == 0 {
        edges[rng.gen_range(0..edges.len())]
    } else {
        rng.gen_range(range)
    }
}

/// An Init of any values that its bits can hold, most of them good.
pub fn init(rng: &mut SmallRng) -> Init {
    Init {
        n_factor: rng.gen_range(0..=7),
        channel_stim: edge_or(rng, &[0, 1, 128, 255], 1..=255) as u8,
        channel_lf: rng.gen(),
        group_time: edge_or(rng, &[0, 2, 3, 29, 30, 31], 3..=29) as u8,
        main_time: edge_or(rng, &[0, 3, 4, 2045, 2046, 2047], 4..=2045) as u16,
    }
}

/// A setting of any values that its bits can hold, most of them good.
pub fn setting(rng: &mut SmallRng) -> Setting {
    let edges = [0, 1, 9, 10, 500, 501, 511];
    Setting {
        mode: if rng.gen_range(0..30) == 0 { 3 } else { rng.gen_range(0..=2) },
        pulse_width: edge_or(rng, &edges, 10..=500) as u16,
        pulse_current: edge_or(rng, &[0, 1, 127], 0..=127) as u8,
    }
}

/// Settings of any values for a list of `count` channels.
pub fn settings(rng: &mut SmallRng, count: usize) -> [Setting; 8] {
    std::array::from_fn(|index| if index < count { setting(rng) } else { Setting::default() })
}

/// A Single of any values that its bits can hold, most of them good.
pub fn single(rng: &mut SmallRng) -> Single {
    let Setting { pulse_width, pulse_current, .. } = setting(rng);
    Single { channel_number: rng.gen_range(0..=7), pulse_width, pulse_current }
}

pub fn command(rng: &mut SmallRng, count: usize) -> Command {
    match rng.gen_range(0..4) {
        0 => Command::Init(init(rng)),
        1 => Command::Update(settings(rng, count)),
        2 => Command::Stop,
        _ => Command::Single(single(rng)),
    }
}

/// The frame of a command with its right check, don't-care bits set at random.
pub fn frame(rng: &mut SmallRng, command: &Command, count: usize) -> Vec<u8> {
    let frame = independent::compose(command, count, independent::check(command));
    let free = independent::free_bits(command.kind(), count);
    frame.iter().zip(free).map(|(byte, free)| byte | (free & rng.gen::<u8>())).collect()
}

/// A good profile; most leave room for most commands.
pub fn profile(rng: &mut SmallRng) -> Profile {
    let least = if rng.gen_range(0..8) == 0 { 0 } else { 90 };
    Profile {
        currents: std::array::from_fn(|_| edge_or(rng, &[least, 126, 127], least..=127) as u8),
        widths: std::array::from_fn(|_| edge_or(rng, &[499, 500], 4 * least..=500) as u16),
        charge: edge_or(rng, &[63_499, 63_500], 400 * least..=63_500),
        shortest: edge_or(rng, &[30, 10_235], 30..=200),
        watchdog: edge_or(rng, &[1, 600_000], 100..=3_000),
    }
}

/// A good profile that is nowhere looser.
pub fn nowhere_looser(rng: &mut SmallRng, than: &Profile) -> Profile {
    let mut less = |least: u32, number: u32| {
        if rng.gen_range(0..6) == 0 {
            rng.gen_range(least..=number)
        } else {
            number
        }
    };
    Profile {
        currents: than.currents.map(|current| less(0, current.into()) as u8),
        widths: than.widths.map(|width| less(0, width.into()) as u16),
        charge: less(0, than.charge),
        shortest: 10_235 - less(0, 10_235 - than.shortest),
        watchdog: less(1, than.watchdog),
    }
}
