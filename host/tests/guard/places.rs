//! The numbers of a box on the library's side of the boundary, found by calls on bytes: each lies
//! where Rust has it.

use crate::bytes::{self, Bytes, ProfileBytes, Unit};
use std::mem::{offset_of, size_of};
use std::ptr;
use yarrowbell::raw::{BoxRecord, Made, Profile, Said};
use yarrowbell::{write, Command, Init, Setting};

/// A number in a struct: offset, bytes, value.
type Number = (usize, usize, u64);

const CAPACITY: u32 = 48;

/// This value where Rust has that number.
fn number<S: Default, N>(of: impl Fn(&S) -> &N, value: u64) -> Number {
    let all = S::default();
    let offset = ptr::from_ref(of(&all)).addr() - ptr::from_ref(&all).addr();
    (offset, size_of::<N>(), value)
}

fn of_profile<N>(of: impl Fn(&Profile) -> &N, value: u64) -> Number {
    number(of, value)
}

fn of_box<N>(of: impl Fn(&BoxRecord) -> &N, value: u64) -> Number {
    number(of, value)
}

fn of_said<N>(of: impl Fn(&Said) -> &N, value: u64) -> Number {
    number(of, value)
}

fn put(bytes: &mut [u8], (offset, size, value): Number) {
    bytes[offset..][..size].copy_from_slice(&value.to_le_bytes()[..size]);
}

fn has(bytes: &[u8], numbers: &[Number]) {
    for &(offset, size, value) in numbers {
        let digits = bytes[offset..][..size].iter().rev();
        let found = digits.fold(0, |number, &digit| number << 8 | u64::from(digit));
        assert_eq!(found, value, "the {size} bytes at {offset}");
    }
}

fn answers(said: &[u8], answer: u64) {
    has(said, &[of_said(|said| &said.answer, answer)]);
}

/// A profile of which every number is another one.
fn profile() -> Vec<Number> {
    let currents = (0..8).map(|channel| of_profile(|p| &p.currents[channel], 101 + channel as u64));
    let widths = (0..8).map(|channel| of_profile(|p| &p.widths[channel], 401 + channel as u64));
    let others = [
        of_profile(|p| &p.charge, 0xE123),
        of_profile(|p| &p.shortest, 0x0102),
        of_profile(|p| &p.watchdog, 0x8_0706),
    ];
    currents.chain(widths).chain(others).collect()
}

fn made() -> Unit {
    let mut bytes = ProfileBytes::new([0; size_of::<Profile>()]);
    profile().into_iter().for_each(|number| put(&mut bytes.all, number));
    let made = bytes::make(bytes, CAPACITY).all;
    has(&made, &[number(|made: &Made| &made.answer, 0)]);
    let record = made[offset_of!(Made, made)..][..size_of::<BoxRecord>()].try_into();
    let record = Bytes::new(record.expect("it has the size"));
    Unit { record: Box::new(record), ring: vec![0; CAPACITY as usize] }
}

/// Sends a command: it is carried out.
fn send(unit: &mut Unit, command: &Command, count: usize) {
    let mut frame = [0; 25];
    let used = write(command, count, &mut frame).expect("the command is good");
    let said = frame[..used].iter().map(|&byte| unit.byte(byte));
    answers(&said.last().expect("a frame has bytes").all, 0);
}

/// The settings of channels 1, 3 and 6 for an Update.
fn update(first: u8) -> Command {
    let mut settings = [Setting::default(); 8];
    for (mode, setting) in (0..3).zip(&mut settings) {
        *setting = Setting { mode, width: 260 + u16::from(first + mode), current: first + mode };
    }
    Command::Update(settings)
}

/// Which settings of a box.
type Settings = fn(&BoxRecord) -> &[Setting; 8];

const RULING: Settings = |b| &b.core.run.settings;
const WAITING: Settings = |b| &b.core.run.waiting;

/// A channel's setting.
fn setting(of: Settings, channel: usize, mode: u64, width: u64, current: u64) -> [Number; 3] {
    [
        of_box(|b| &of(b)[channel - 1].mode, mode),
        of_box(|b| &of(b)[channel - 1].width, width),
        of_box(|b| &of(b)[channel - 1].current, current),
    ]
}

/// The settings of an Update where a box has them, each at its channel.
fn settings(of: Settings, first: u64) -> Vec<Number> {
    let listed = (0..).zip([1, 3, 6]);
    let listed = listed
        .flat_map(|(mode, channel)| setting(of, channel, mode, 260 + first + mode, first + mode));
    let silent = [2, 4, 5, 7, 8].into_iter().flat_map(|channel| setting(of, channel, 0, 0, 0));
    listed.chain(silent).collect()
}

/// A running box with an update that rules, one that waits, and one that is unfinished.
fn running() -> Unit {
    let mut unit = made();
    let init = Init { factor: 2, stim: 0b10_0101, lf: 0b1000_0100, group: 9, main: 0x103 };
    send(&mut unit, &Command::Init(init), 1);
    send(&mut unit, &update(40), 3);
    // t1 is 1305.
    for _ in 0..1305 + 0x204 {
        unit.tick();
    }
    send(&mut unit, &update(70), 3);
    for _ in 0..0x101 {
        unit.tick();
    }
    for byte in [0xA7, 0x11, 0x12, 0x13] {
        answers(&unit.byte(byte).all, 1);
    }
    unit
}

#[test]
fn a_made_box() {
    let record = made().record.all;
    has(&record[offset_of!(BoxRecord, profile)..], &profile());
    let rest = [
        of_box(|b| &b.clock, 0),
        of_box(|b| &b.core.holda, 0),
        of_box(|b| &b.core.holdb, 0),
        of_box(|b| &b.core.state, 0),
        of_box(|b| &b.ring.capacity, 48),
        of_box(|b| &b.ring.start, 0),
    ];
    has(&record, &rest);
}

/// "A refusal gives an all-zero record": every byte of it.
#[test]
fn a_refused_making() {
    let made = bytes::make(ProfileBytes::new([0; size_of::<Profile>()]), CAPACITY).all;
    has(&made, &[number(|made: &Made| &made.answer, 11)]);
    let record = &made[offset_of!(Made, made)..][..size_of::<BoxRecord>()];
    bytes::same("the record", record, &[0; size_of::<BoxRecord>()]);
}

#[test]
fn a_running_box() {
    let unit = running();
    let record = &unit.record.all;
    has(&record[offset_of!(BoxRecord, profile)..], &profile());
    has(record, &settings(RULING, 40));
    has(record, &settings(WAITING, 70));
    let rest = [
        of_box(|b| &b.clock, 1305 + 0x204 + 0x101),
        of_box(|b| &b.core.holda, 0),
        of_box(|b| &b.core.holdb, 0),
        of_box(|b| &b.core.state, 1),
        of_box(|b| &b.core.run.list.factor, 2),
        of_box(|b| &b.core.run.list.stim, 0b10_0101),
        of_box(|b| &b.core.run.list.lf, 0b1000_0100),
        of_box(|b| &b.core.run.list.group, 9),
        of_box(|b| &b.core.run.list.main, 0x103),
        of_box(|b| &b.core.run.waits, 1),
        of_box(|b| &b.core.run.position, 0x305),
        of_box(|b| &b.core.run.cycle, 1),
        of_box(|b| &b.core.run.watch, 0x101),
        of_box(|b| &b.partial.bytes[0], 0xA7),
        of_box(|b| &b.partial.bytes[1], 0x11),
        of_box(|b| &b.partial.bytes[2], 0x12),
        of_box(|b| &b.partial.bytes[3], 0x13),
        of_box(|b| &b.partial.len, 4),
        of_box(|b| &b.partial.kept, 10),
        // The answers to Init and Update have made room for four pulses and an answer.
        of_box(|b| &b.ring.capacity, 48),
        of_box(|b| &b.ring.start, 14),
        of_box(|b| &b.ring.used, 43),
    ];
    has(record, &rest);
    assert_eq!(unit.ring[14], 2);
}

#[test]
fn holds_and_pulses() {
    let mut unit = made();
    let says = |unit: &mut Unit, frame: [u8; 4], numbers: &[Number]| {
        for byte in &frame[..3] {
            let unfinished = [of_said(|said| &said.answer, 1), of_said(|said| &said.reply, 0)];
            has(&unit.byte(*byte).all, &unfinished);
        }
        let said = unit.byte(frame[3]).all;
        has(&said, &[of_said(|said| &said.answer, 0), of_said(|said| &said.reply, 0xC1)]);
        has(&said, numbers);
    };
    // Channel 3, 200 µs, 100 mA, and channel 6, 221 µs, 55 mA.
    let a = [
        of_said(|said| &said.a.clock, 0),
        of_said(|said| &said.a.channel, 3),
        of_said(|said| &said.a.width, 200),
        of_said(|said| &said.a.current, 100),
    ];
    says(&mut unit, [0xEE, 0x21, 0x48, 0x64], &a);
    for _ in 0..4 {
        has(&unit.tick().all, &[of_said(|said| &said.answer, 0), of_said(|said| &said.reply, 0)]);
    }
    let b = [
        of_said(|said| &said.b.clock, 4),
        of_said(|said| &said.b.channel, 6),
        of_said(|said| &said.b.width, 221),
        of_said(|said| &said.b.current, 55),
    ];
    says(&mut unit, [0xF9, 0x51, 0x5D, 0x37], &b);
    let core = [
        of_box(|b| &b.core.holda, 11),
        of_box(|b| &b.core.holdb, 15),
        of_box(|b| &b.core.state, 0),
    ];
    has(&unit.record.all, &core);
}

/// A bad value for every number of the running box but Channel_Lf, which has none.
fn bad_values() -> Vec<Number> {
    let mut bad = Vec::new();
    for channel in 1..=8 {
        bad.push(of_box(|b| &b.profile.currents[channel - 1], 128));
        bad.push(of_box(|b| &b.profile.widths[channel - 1], 501));
        bad.extend(setting(RULING, channel, 3, 501, 128));
        bad.extend(setting(WAITING, channel, 3, 501, 128));
    }
    bad.extend([
        of_box(|b| &b.profile.charge, 63_501),
        of_box(|b| &b.profile.shortest, 29),
        of_box(|b| &b.profile.watchdog, 600_001),
        of_box(|b| &b.clock, 0),
        of_box(|b| &b.core.holda, 16),
        of_box(|b| &b.core.holdb, 16),
        of_box(|b| &b.core.state, 3),
        of_box(|b| &b.core.run.list.factor, 8),
        of_box(|b| &b.core.run.list.stim, 0),
        of_box(|b| &b.core.run.list.group, 30),
        of_box(|b| &b.core.run.list.main, 2_046),
        of_box(|b| &b.core.run.waits, 2),
        of_box(|b| &b.core.run.position, 1_305),
        of_box(|b| &b.core.run.cycle, 1305 + 0x204 + 0x101 + 1),
        of_box(|b| &b.core.run.watch, 0x8_0706),
        of_box(|b| &b.partial.bytes[0], 0x27),
        of_box(|b| &b.partial.bytes[1], 0x80),
        of_box(|b| &b.partial.bytes[3], 0x80),
        of_box(|b| &b.partial.len, 10),
        of_box(|b| &b.partial.kept, 13),
        of_box(|b| &b.ring.capacity, 15),
        of_box(|b| &b.ring.start, 48),
        of_box(|b| &b.ring.used, 49),
    ]);
    bad.extend((4..25).map(|place| of_box(|b| &b.partial.bytes[place], 1)));
    // What the box has, and more in a byte that no good number needs.
    bad.extend([
        of_box(|b| &b.profile.shortest, 0x1_0102),
        of_box(|b| &b.core.state, 0x101),
        of_box(|b| &b.core.run.waits, 0x101),
        of_box(|b| &b.partial.len, 0x104),
        of_box(|b| &b.ring.capacity, 0x1_0030),
        of_box(|b| &b.ring.start, 0x1_000E),
        of_box(|b| &b.ring.used, 0x1_002B),
    ]);
    bad
}

/// Byte and tick are refused with 12 once this number is put into the box.
fn spoils(unit: &Unit, number: Number) {
    let mut spoilt = unit.clone();
    put(&mut spoilt.record.all, number);
    for said in [spoilt.clone().byte(0x14), spoilt.clone().tick()] {
        let (offset, _, value) = number;
        assert_eq!(said.all[offset_of!(Said, answer)], 12, "{value} at {offset}");
    }
}

#[test]
fn each_bad_value_is_seen() {
    let unit = running();
    answers(&unit.clone().byte(0x14).all, 1);
    answers(&unit.clone().tick().all, 0);
    bad_values().into_iter().for_each(|number| spoils(&unit, number));
}

/// Every number of a list in an idle box, Channel_Lf among them.
#[test]
fn an_idle_box_has_no_list() {
    let numbers = [
        of_box(|b| &b.core.run.list.factor, 1),
        of_box(|b| &b.core.run.list.stim, 1),
        of_box(|b| &b.core.run.list.lf, 1),
        of_box(|b| &b.core.run.list.group, 1),
        of_box(|b| &b.core.run.list.main, 1),
        of_box(|b| &b.core.run.watch, 1),
    ];
    numbers.into_iter().for_each(|number| spoils(&made(), number));
}
