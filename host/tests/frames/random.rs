//! Random commands and bytes.

pub use crate::seeded::seeded;
use independent::{Command, Init, Kind, Setting, Single};
use rand::rngs::SmallRng;
use rand::Rng;

pub const KINDS: [Kind; 4] = [Kind::Init, Kind::Update, Kind::Stop, Kind::Single];

/// A command of good values.
pub fn good(rng: &mut SmallRng, kind: Kind, count: usize) -> Command {
    match kind {
        Kind::Init => Command::Init(good_init(rng)),
        Kind::Update => Command::Update(good_update(rng, count)),
        Kind::Stop => Command::Stop,
        Kind::Single => Command::Single(Single {
            channel_number: rng.gen_range(0..=7),
            pulse_width: good_width(rng),
            pulse_current: rng.gen_range(0..=127),
        }),
    }
}

pub fn good_init(rng: &mut SmallRng) -> Init {
    Init {
        n_factor: rng.gen_range(0..=7),
        channel_stim: rng.gen_range(1..=255),
        channel_lf: rng.gen(),
        group_time: rng.gen_range(3..=29),
        main_time: edge_or(rng, &[4, 5, 2044, 2045], 4..=2045),
    }
}

pub fn good_update(rng: &mut SmallRng, count: usize) -> [Setting; 8] {
    std::array::from_fn(|index| if index < count { good_setting(rng) } else { Setting::default() })
}

fn good_setting(rng: &mut SmallRng) -> Setting {
    Setting {
        mode: rng.gen_range(0..=2),
        pulse_width: good_width(rng),
        pulse_current: rng.gen_range(0..=127),
    }
}

fn good_width(rng: &mut SmallRng) -> u16 {
    edge_or(rng, &[0, 10, 11, 499, 500], 10..=500)
}

/// Variables of any value that their bits can hold.
pub fn any_init(rng: &mut SmallRng) -> Init {
    Init {
        n_factor: rng.gen_range(0..=7),
        channel_stim: edge_or(rng, &[0, 1, 128], 0..=255) as u8,
        channel_lf: rng.gen(),
        group_time: rng.gen_range(0..=31),
        main_time: edge_or(rng, &[0, 3, 4, 2045, 2046, 2047], 0..=2047),
    }
}

pub fn any_setting(rng: &mut SmallRng) -> Setting {
    Setting {
        mode: rng.gen_range(0..=3),
        pulse_width: edge_or(rng, &[0, 1, 9, 10, 500, 501, 511], 0..=511),
        pulse_current: rng.gen_range(0..=127),
    }
}

/// One time in four one of the edges.
fn edge_or(rng: &mut SmallRng, edges: &[u16], range: std::ops::RangeInclusive<u16>) -> u16 {
    if rng.gen_range(0..4) == 0 {
        edges[rng.gen_range(0..edges.len())]
    } else {
        rng.gen_range(range)
    }
}

/// The frame of a command with its right check, whether or not its values are good.
pub fn framed(command: &Command, count: usize) -> Vec<u8> {
    independent::compose(command, count, independent::check(command))
}

/// The frame with don't-care bits set at random.
pub fn stirred(rng: &mut SmallRng, kind: Kind, count: usize, frame: &[u8]) -> Vec<u8> {
    let free = independent::free_bits(kind, count);
    frame.iter().zip(free).map(|(byte, free)| byte | (free & rng.gen::<u8>())).collect()
}

/// From 0 to `longest` bytes: any, or low ones only, or low ones with a rare high one.
pub fn bytes(rng: &mut SmallRng, longest: usize) -> Vec<u8> {
    let length = rng.gen_range(0..=longest);
    let high = [1.0, 0.0, 0.05][rng.gen_range(0..3)];
    let masked = |rng: &mut SmallRng| {
        let byte = rng.gen::<u8>();
        if rng.gen_bool(high) {
            byte
        } else {
            byte & 0x7F
        }
    };
    (0..length).map(|_| masked(rng)).collect()
}
