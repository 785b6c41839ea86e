//! Random commands of good values, and random bytes.

pub use crate::seeded::seeded;
use rand::rngs::SmallRng;
use rand::Rng;
use yarrowbell::{Command, Init, Setting, Single};

pub fn init(rng: &mut SmallRng) -> Command {
    Command::Init(Init {
        factor: rng.gen_range(0..=7),
        stim: rng.gen_range(1..=255),
        lf: rng.gen(),
        group: rng.gen_range(3..=29),
        main: rng.gen_range(4..=2045),
    })
}

pub fn update(rng: &mut SmallRng, count: usize) -> Command {
    let mut settings = [Setting::default(); 8];
    for setting in &mut settings[..count] {
        *setting = Setting {
            mode: rng.gen_range(0..=2),
            width: width(rng),
            current: rng.gen_range(0..=127),
        };
    }
    Command::Update(settings)
}

pub fn single(rng: &mut SmallRng) -> Command {
    Command::Single(Single {
        channel: rng.gen_range(0..=7),
        width: width(rng),
        current: rng.gen_range(0..=127),
    })
}

fn width(rng: &mut SmallRng) -> u16 {
    if rng.gen_range(0..8) == 0 {
        0
    } else {
        rng.gen_range(10..=500)
    }
}

/// An Init, an Update and a Single, in which about every second one has a value that is not good.
pub fn at_the_edges(rng: &mut SmallRng, count: usize) -> [Command; 3] {
    let width = |rng: &mut SmallRng| [0, 10, 500, 9, 501, rng.gen()][often(rng, 3, 6)];
    let current = |rng: &mut SmallRng| [0, 127, 128, rng.gen()][often(rng, 2, 4)];
    let init = Init {
        factor: [0, 7, 8, rng.gen()][often(rng, 2, 4)],
        stim: rng.gen_range(1..=255),
        lf: rng.gen(),
        group: [3, 29, 2, 30, rng.gen()][often(rng, 2, 5)],
        main: [4, 2045, 3, 2046, rng.gen()][often(rng, 2, 5)],
    };
    let mut settings = [Setting::default(); 8];
    for setting in &mut settings[..count] {
        let mode = [0, 2, 3, rng.gen()][often(rng, 2, 4)];
        *setting = Setting { mode, width: width(rng), current: current(rng) };
    }
    let channel = [0, 7, 8, rng.gen_range(0..=254)][often(rng, 2, 4)];
    let single = Single { channel, width: width(rng), current: current(rng) };
    [Command::Init(init), Command::Update(settings), Command::Single(single)]
}

/// A place among so many, mostly among the first of them, which are good.
fn often(rng: &mut SmallRng, good: usize, all: usize) -> usize {
    let among = if rng.gen_bool(0.9) { good } else { all };
    rng.gen_range(0..among)
}

/// From 1 to 26 bytes, of which the first is mostly high and the others mostly low.
pub fn bytes(rng: &mut SmallRng) -> Vec<u8> {
    let length = rng.gen_range(1..=26);
    let byte = |place| {
        let high = if place == 0 { 0.9 } else { 0.02 };
        rng.gen_range(0..=0x7F) | if rng.gen_bool(high) { 0x80 } else { 0 }
    };
    (0..length).map(byte).collect()
}
