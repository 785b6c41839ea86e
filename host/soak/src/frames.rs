//! Random frames, most of them such as the box in its state takes. Each fault has a chance of its
//! own, so that some frames have several and the order of the tests shows.

use crate::pick::{any, once_in, weighted};
use independent::{Command, Init, Setting, Single};
use rand::rngs::SmallRng;
use rand::Rng;
use yarrowbell::raw::{self, BoxRecord};

/// The bytes of a frame, whole and right or spoilt.
pub fn frame(rng: &mut SmallRng, unit: &BoxRecord) -> Vec<u8> {
    let (command, count) = command(rng, unit);
    let right = independent::check(&command);
    let check = if once_in(rng, 16) { right ^ rng.gen_range(1..=7) } else { right };
    let mut bytes = independent::compose(&command, count, check);
    if once_in(rng, 4) {
        let free = independent::free_bits(command.kind(), count);
        bytes.iter_mut().zip(free).for_each(|(byte, free)| *byte |= free & rng.gen::<u8>());
    }
    match rng.gen_range(0..60) {
        0 => bytes.truncate(rng.gen_range(0..bytes.len())),
        1 => {
            let place = rng.gen_range(0..bytes.len());
            bytes[place] |= 0x80;
        }
        2 => bytes.insert(rng.gen_range(0..=bytes.len()), rng.gen_range(0..0x80)),
        3 => bytes.push(rng.gen()),
        _ => {}
    }
    bytes
}

/// A command, and for how many channels it is written.
fn command(rng: &mut SmallRng, unit: &BoxRecord) -> (Command, usize) {
    let weights = match unit.core.state {
        0 => [45, 10, 10, 35],
        1 => [12, 60, 8, 20],
        _ => [40, 20, 15, 25],
    };
    match weighted(rng, &weights) {
        0 => (Command::Init(init(rng, unit)), 1),
        1 => update(rng, unit),
        2 => (Command::Stop, 1),
        _ => (Command::Single(single(rng, unit)), 1),
    }
}

fn init(rng: &mut SmallRng, unit: &BoxRecord) -> Init {
    let channel_stim: u8 = match rng.gen_range(0..8) {
        0 => 0xFF,
        1 | 2 => 1 << rng.gen_range(0..8),
        3 => rng.gen::<u8>() | rng.gen::<u8>(),
        4 if once_in(rng, 4) => 0,
        _ => rng.gen_range(1..=255),
    };
    let most = (channel_stim & 0x0F).count_ones().max((channel_stim >> 4).count_ones());
    // t2 is at least 15 for each channel of the fuller module.
    let least = (3 * most).max(6) - 3;
    let group_time = match rng.gen_range(0..16) {
        0 => rng.gen_range(0..=31),
        1 => least - 1,
        2 => least + 1,
        3 | 4 => rng.gen_range(least..=29),
        5 => any(rng, &[2, 3, 29, 30]),
        _ => least,
    };
    // Room in t1 for one pulse of each channel, or for doublets or triplets.
    let pulses = any(rng, &[1, 1, 2, 3]);
    let least = pulses * (group_time + 3) + 1;
    let allowed = unit.profile.shortest.saturating_sub(6) / 5;
    let main_time = match rng.gen_range(0..24) {
        0 => rng.gen_range(0..=2_047),
        1 => least - 1,
        2 => allowed.max(1) - 1,
        3 => any(rng, &[3, 4, 2_045, 2_046]),
        4..=6 => least.max(allowed) + rng.gen_range(0..=20),
        7 => least,
        _ => least.max(allowed),
    };
    Init {
        n_factor: any(rng, &[0, 1, 1, 2, 2, 3, 4, 5, 6, 7]),
        channel_stim,
        channel_lf: rng.gen::<u8>() & rng.gen::<u8>(),
        group_time: group_time as u8,
        main_time: main_time as u16,
    }
}

/// An Update for the list that runs; where none does, for any number of channels.
fn update(rng: &mut SmallRng, unit: &BoxRecord) -> (Command, usize) {
    let list = &unit.core.run.list;
    let listed: Vec<usize> = match list.stim {
        0 => (0..rng.gen_range(1..=8)).collect(),
        stim => (0..8).filter(|channel| stim >> channel & 1 == 1).collect(),
    };
    let (t1, t2) = (5 * u32::from(list.main) + 10, 5 * u32::from(list.group) + 15);
    let fitting = (t1.saturating_sub(15) / t2).clamp(1, 3) - 1;
    let greatest = if once_in(rng, 12) { 2 } else { fitting };
    let mut settings = [Setting::default(); 8];
    for (setting, &channel) in settings.iter_mut().zip(&listed) {
        let (pulse_width, pulse_current) = pulse(rng, &unit.profile, channel);
        let mode = if once_in(rng, 100) { 3 } else { rng.gen_range(0..=greatest) as u8 };
        *setting = Setting { mode, pulse_width, pulse_current };
    }
    (Command::Update(settings), listed.len())
}

fn single(rng: &mut SmallRng, unit: &BoxRecord) -> Single {
    let channel_number = rng.gen_range(0..8);
    let (pulse_width, pulse_current) = pulse(rng, &unit.profile, channel_number.into());
    Single { channel_number, pulse_width, pulse_current }
}

/// A width and a current: within the channel's limits and the charge, often just so.
fn pulse(rng: &mut SmallRng, profile: &raw::Profile, channel: usize) -> (u16, u8) {
    let (width, current) = (profile.widths[channel], profile.currents[channel]);
    match rng.gen_range(0..80) {
        0 => return (any(rng, &[1, 9, 501, 511]), current),
        1 => return (width + 1, current.min(20)),
        2 => return (width.min(100), (current + 1).min(127)),
        3 => return (rng.gen_range(0..=511), rng.gen_range(0..=127)),
        4..=7 => return of_charge(rng, profile.charge),
        8 => return of_charge(rng, profile.charge + 1),
        9 => return (0, current),
        10 => return (width, 0),
        _ => {}
    }
    let current = if once_in(rng, 4) { current } else { rng.gen_range(0..=current) };
    let width = if once_in(rng, 4) { width } else { rng.gen_range(0..=width) };
    let width = match profile.charge.checked_div(current.into()) {
        Some(most) => width.min(most.min(500) as u16),
        None => width,
    };
    (if width < 10 { 0 } else { width }, current)
}

/// A width and a current with this charge, if there are such.
fn of_charge(rng: &mut SmallRng, charge: u32) -> (u16, u8) {
    let first = rng.gen_range(1..=127);
    let found = (first..=127).chain(1..first).find(|current| {
        charge.is_multiple_of(*current) && (10..=500).contains(&(charge / current))
    });
    found.map_or((0, 0), |current| ((charge / current) as u16, current as u8))
}
