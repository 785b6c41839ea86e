//! Damage to what a call is given: a field of the record, the part, a byte of the ring.

use crate::pick::{any, once_in};
use rand::rngs::SmallRng;
use rand::Rng;
use yarrowbell::raw::{BoxRecord, Part, Profile, Setting};

/// Gives a field another value, perhaps the one that it has; of eight fields that of a channel,
/// counted from 0.
type Change = fn(&mut SmallRng, &mut BoxRecord, usize);

/// The fields, each changed to its bounds and one past them, to its neighbours, to what other
/// fields make its bound, and far away.
pub const FIELDS: [(&str, Change); 33] = [
    ("profile.currents", |rng, record, channel| {
        let bounds = [127, set(rng, record, channel).current.into()];
        small(rng, &mut record.profile.currents[channel], &bounds);
    }),
    ("profile.widths", |rng, record, channel| {
        let bounds = [500, set(rng, record, channel).width.into()];
        middle(rng, &mut record.profile.widths[channel], &bounds);
    }),
    ("profile.charge", |rng, record, channel| {
        let set = set(rng, record, channel);
        let bounds = [63_500, u64::from(set.width) * u64::from(set.current)];
        large(rng, &mut record.profile.charge, &bounds);
    }),
    ("profile.shortest", |rng, record, _| {
        let bounds = [30, 10_235, t1(record)];
        large(rng, &mut record.profile.shortest, &bounds);
    }),
    ("profile.watchdog", |rng, record, _| {
        let bounds = [1, 600_000, record.core.run.watch.into()];
        large(rng, &mut record.profile.watchdog, &bounds);
    }),
    ("clock", |rng, record, _| {
        let bounds = [record.core.run.cycle.into()];
        large(rng, &mut record.clock, &bounds);
    }),
    ("holda", |rng, record, _| small(rng, &mut record.core.holda, &[15])),
    ("holdb", |rng, record, _| small(rng, &mut record.core.holdb, &[15])),
    ("state", |rng, record, _| middle(rng, &mut record.core.state, &[2])),
    ("list.factor", |rng, record, _| small(rng, &mut record.core.run.list.factor, &[7])),
    ("list.stim", |rng, record, channel| {
        let other = record.core.run.list.stim ^ 1 << channel;
        small(rng, &mut record.core.run.list.stim, &[other.into()]);
    }),
    ("list.lf", |rng, record, _| small(rng, &mut record.core.run.list.lf, &[0])),
    ("list.group", |rng, record, _| small(rng, &mut record.core.run.list.group, &[3, 29])),
    ("list.main", |rng, record, _| {
        let bounds = [4, 2_045, u64::from(record.core.run.position) / 5];
        middle(rng, &mut record.core.run.list.main, &bounds);
    }),
    ("settings.mode", |rng, record, channel| {
        small(rng, &mut record.core.run.settings[channel].mode, &[2]);
    }),
    ("settings.width", |rng, record, channel| {
        let setting = &mut record.core.run.settings[channel];
        width(rng, setting, &record.profile, channel);
    }),
    ("settings.current", |rng, record, channel| {
        let setting = &mut record.core.run.settings[channel];
        current(rng, setting, &record.profile, channel);
    }),
    ("waits", |rng, record, _| large(rng, &mut record.core.run.waits, &[1])),
    ("waiting.mode", |rng, record, channel| {
        small(rng, &mut record.core.run.waiting[channel].mode, &[2]);
    }),
    ("waiting.width", |rng, record, channel| {
        let setting = &mut record.core.run.waiting[channel];
        width(rng, setting, &record.profile, channel);
    }),
    ("waiting.current", |rng, record, channel| {
        let setting = &mut record.core.run.waiting[channel];
        current(rng, setting, &record.profile, channel);
    }),
    ("position", |rng, record, _| {
        let bounds = [t1(record) - 1];
        middle(rng, &mut record.core.run.position, &bounds);
    }),
    ("cycle", |rng, record, _| {
        let bounds = [record.clock.into()];
        large(rng, &mut record.core.run.cycle, &bounds);
    }),
    ("watch", |rng, record, _| {
        let bounds = [record.profile.watchdog.into()];
        large(rng, &mut record.core.run.watch, &bounds);
    }),
    ("partial.bytes, the first", |rng, record, _| {
        small(rng, &mut record.partial.bytes[0], &[0x80, 0xA0, 0xC0, 0xE0]);
    }),
    ("partial.bytes, used", |rng, record, _| {
        let place = rng.gen_range(0..record.partial.len.max(1));
        small(rng, &mut record.partial.bytes[usize::from(place)], &[0x7F]);
    }),
    ("partial.bytes, unused", |rng, record, _| {
        let place = rng.gen_range(record.partial.len..25);
        small(rng, &mut record.partial.bytes[usize::from(place)], &[1]);
    }),
    ("partial.len", |rng, record, _| {
        let bounds = [record.partial.kept.into(), 25];
        middle(rng, &mut record.partial.len, &bounds);
    }),
    ("partial.kept", |rng, record, _| {
        let other = u64::from(record.partial.kept) + any(rng, &[3, 6, 25]);
        let bounds = [record.partial.len.into(), 1, 4, 6, 25, other];
        small(rng, &mut record.partial.kept, &bounds);
    }),
    ("ring.capacity", |rng, record, _| {
        let bounds = [16, 4_096, record.ring.used.into()];
        large(rng, &mut record.ring.capacity, &bounds);
    }),
    ("ring.start", |rng, record, _| {
        let bounds = [record.ring.capacity.into()];
        large(rng, &mut record.ring.start, &bounds);
    }),
    ("ring.used", |rng, record, _| {
        let bounds = [record.ring.capacity.into()];
        large(rng, &mut record.ring.used, &bounds);
    }),
    ("ring.used, with its start", |rng, record, _| {
        let bounds = [record.ring.capacity.into()];
        record.ring.start = rng.gen_range(0..record.ring.capacity);
        large(rng, &mut record.ring.used, &bounds);
    }),
];

/// A part that is not the box's: off by one, past the end, past what a number holds.
pub fn part(rng: &mut SmallRng, at: Part, length: usize) -> Part {
    let mut wrong = at;
    if rng.gen() {
        size(rng, &mut wrong.offset, &[at.offset, length, length - at.size, usize::MAX - at.size]);
    } else {
        size(rng, &mut wrong.size, &[at.size, length, length - at.offset, usize::MAX - at.offset]);
    }
    wrong
}

/// Changes a byte of the buffer, most often a used one of the ring, to a kind or nearly one.
pub fn byte(rng: &mut SmallRng, record: &BoxRecord, at: Part, buffer: &mut [u8]) {
    let ring = record.ring;
    let place = if once_in(rng, 4) || ring.used == 0 {
        Some(rng.gen_range(0..=buffer.len()))
    } else {
        let within = rng.gen_range(0..ring.used);
        let number = any(rng, &[0, ring.used - 1, within]);
        let place = ring.start.checked_add(number).and_then(|far| far.checked_rem(ring.capacity));
        place.and_then(|place| at.offset.checked_add(place as usize))
    };
    if let Some(byte) = place.and_then(|place| buffer.get_mut(place)) {
        *byte = any(rng, &[0, 1, 2, 3, 4, 255]);
    }
}

/// The channel's setting, the one that rules or the one that waits.
fn set(rng: &mut SmallRng, record: &BoxRecord, channel: usize) -> Setting {
    let run = &record.core.run;
    any(rng, &[run.settings[channel], run.waiting[channel]])
}

fn t1(record: &BoxRecord) -> u64 {
    5 * u64::from(record.core.run.list.main) + 10
}

/// A width is bounded by its range, by the limit, and by the charge with its current.
fn width(rng: &mut SmallRng, setting: &mut Setting, profile: &Profile, channel: usize) {
    let most = profile.charge.checked_div(setting.current.into()).unwrap_or(0);
    let bounds = [0, 10, 500, profile.widths[channel].into(), most.into()];
    middle(rng, &mut setting.width, &bounds);
}

/// A current is bounded by its range, by the limit, and by the charge with its width.
fn current(rng: &mut SmallRng, setting: &mut Setting, profile: &Profile, channel: usize) {
    let most = profile.charge.checked_div(setting.width.into()).unwrap_or(0);
    let bounds = [127, profile.currents[channel].into(), most.into()];
    small(rng, &mut setting.current, &bounds);
}

/// A number for a field that now has `now`, of which `most` is the greatest that the field holds.
fn number(rng: &mut SmallRng, now: u64, bounds: &[u64], most: u64) -> u64 {
    let near = match rng.gen_range(0..8) {
        0 => 0,
        1 => most,
        2 => rng.gen_range(0..=most),
        3 | 4 => now,
        _ => any(rng, bounds),
    };
    any(rng, &[near.saturating_sub(1), near, near.saturating_add(1)]).min(most)
}

fn small(rng: &mut SmallRng, field: &mut u8, bounds: &[u64]) {
    *field = number(rng, (*field).into(), bounds, u8::MAX.into()) as u8;
}

fn middle(rng: &mut SmallRng, field: &mut u16, bounds: &[u64]) {
    *field = number(rng, (*field).into(), bounds, u16::MAX.into()) as u16;
}

fn large(rng: &mut SmallRng, field: &mut u32, bounds: &[u64]) {
    *field = number(rng, (*field).into(), bounds, u32::MAX.into()) as u32;
}

fn size(rng: &mut SmallRng, field: &mut usize, bounds: &[usize]) {
    let bounds: Vec<u64> = bounds.iter().map(|&bound| bound as u64).collect();
    *field = number(rng, *field as u64, &bounds, u64::MAX) as usize;
}
