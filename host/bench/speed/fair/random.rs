//! Random commands, frames and profiles, most of them good.

use independent::plain::machine::Profile;
use independent::{check, compose, Command, Init, Setting, Single};
use rand::rngs::SmallRng;
use rand::Rng;

/// A command that a list of `count` channels can be given.
pub fn command(rng: &mut SmallRng, count: usize) -> Command {
    match rng.gen_range(0..8) {
        0..=1 => Command::Init(init(rng)),
        2..=4 => Command::Update(settings(rng, count)),
        5 => Command::Stop,
        _ => Command::Single(single(rng)),
    }
}

/// The frame of a command, one in eight with a bit changed, cut or too long.
pub fn frame(rng: &mut SmallRng, command: &Command, count: usize) -> Vec<u8> {
    let mut frame = compose(command, count, check(command));
    match rng.gen_range(0..24) {
        0 => {
            let place = rng.gen_range(0..frame.len());
            frame[place] ^= 1 << rng.gen_range(0..8);
        }
        1 => frame.truncate(rng.gen_range(0..frame.len())),
        2 => frame.push(rng.gen()),
        _ => {}
    }
    frame
}

/// A good profile that most commands keep.
pub fn profile(rng: &mut SmallRng) -> Profile {
    Profile {
        currents: std::array::from_fn(|_| rng.gen_range(110..=127)),
        widths: std::array::from_fn(|_| rng.gen_range(450..=500)),
        charge: rng.gen_range(50_000..=63_500),
        shortest: rng.gen_range(30..=100),
        watchdog: rng.gen_range(200..=3_000),
    }
}

fn init(rng: &mut SmallRng) -> Init {
    let any = rng.gen_range(0..8) == 0;
    Init {
        n_factor: rng.gen_range(0..=7),
        channel_stim: rng.gen(),
        channel_lf: rng.gen(),
        group_time: if any { rng.gen_range(0..=31) } else { rng.gen_range(6..=12) },
        main_time: if any { rng.gen_range(0..=2047) } else { rng.gen_range(30..=70) },
    }
}

fn settings(rng: &mut SmallRng, count: usize) -> [Setting; 8] {
    std::array::from_fn(|channel| {
        let Single { pulse_width, pulse_current, .. } = single(rng);
        let mode = if rng.gen_range(0..64) == 0 { 3 } else { rng.gen_range(0..=2) };
        if channel < count {
            Setting { mode, pulse_width, pulse_current }
        } else {
            Setting::default()
        }
    })
}

fn single(rng: &mut SmallRng) -> Single {
    let any = rng.gen_range(0..64) == 0;
    Single {
        channel_number: rng.gen_range(0..=7),
        pulse_width: if any { rng.gen_range(0..=511) } else { rng.gen_range(10..=440) },
        pulse_current: if any { rng.gen_range(0..=127) } else { rng.gen_range(0..=110) },
    }
}
