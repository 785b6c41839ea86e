//! Document 01's sixteen cases, by calls of the box, and its sentences on single calls.

use crate::played::Played;
use independent::plain::codec::{self, Read};
use independent::plain::machine::{BoxRecord, Profile, Pulse};
use independent::{Command, Init, Setting, Single};

/// "Limits at their loosest, watchdog 250".
const LOOSEST: Profile =
    Profile { currents: [127; 8], widths: [500; 8], charge: 63_500, shortest: 30, watchdog: 250 };

const CASE_1: [u8; 4] = [0xE2, 0x21, 0x48, 0x78];
const CASE_5: [u8; 6] = [0x88, 0x01, 0x20, 0x00, 0x30, 0x12];
const CASE_6: [u8; 7] = [0xBB, 0x01, 0x48, 0x28, 0x22, 0x2C, 0x1E];

fn fresh() -> Played {
    Played::new(LOOSEST, 4_096)
}

/// The frame of a command with its right check.
fn framed(command: Command, count: usize) -> Vec<u8> {
    independent::compose(&command, count, independent::check(&command))
}

/// The answer to the last byte of a frame; those before it are told 1.
fn last(played: &mut Played, frame: &[u8]) -> u8 {
    let answers = played.frame(frame);
    let (last, others) = answers.split_last().expect("a frame");
    assert!(others.iter().all(|answer| *answer == 1), "{answers:?}");
    *last
}

fn single(channel_number: u8, pulse_width: u16, pulse_current: u8) -> Vec<u8> {
    framed(Command::Single(Single { channel_number, pulse_width, pulse_current }), 1)
}

fn init(group_time: u8, main_time: u16) -> Vec<u8> {
    let init = Init { n_factor: 0, channel_stim: 255, channel_lf: 0, group_time, main_time };
    framed(Command::Init(init), 1)
}

#[test]
fn cases_1_to_4() {
    let case_1 = Single { channel_number: 2, pulse_width: 200, pulse_current: 120 };
    let case_2 = Single { channel_number: 5, pulse_width: 221, pulse_current: 55 };
    let mut out = [0; 4];
    assert_eq!(codec::write_single(case_1, &mut out).used, 4);
    assert_eq!(out, CASE_1);
    assert_eq!(codec::write_single(case_2, &mut out).used, 4);
    assert_eq!(out, [0xF9, 0x51, 0x5D, 0x37]);
    let read = Read { ident: 3, used: 4, single: case_1, ..Read::default() };
    assert_eq!(codec::read(&CASE_1, 1), read);
    assert_eq!(codec::read(&[0xE2, 0x2D, 0x48, 0x78], 1), read);
    assert_eq!(codec::read(&[0xE3, 0x21, 0x48, 0x78], 1), Read { answer: 3, ..Read::default() });

    for (frame, answer, reply) in [(CASE_1, 0, 0xC1), ([0xE3, 0x21, 0x48, 0x78], 3, 0xC0)] {
        let mut played = fresh();
        assert_eq!(played.frame(&frame[..3]), [1, 1, 1]);
        let said = played.byte(frame[3]);
        assert_eq!((said.answer, said.reply), (answer, reply));
        let pulse = Pulse { clock: 0, channel: 3, width: 200, current: 120 };
        assert_eq!(said.a, if answer == 0 { pulse } else { Pulse::default() });
        assert_eq!(said.b, Pulse::default());
    }
}

#[test]
fn cases_5_to_7() {
    let init =
        Init { n_factor: 0, channel_stim: 0b101, channel_lf: 0, group_time: 3, main_time: 18 };
    let mut settings = [Setting::default(); 8];
    settings[0] = Setting { mode: 0, pulse_width: 200, pulse_current: 40 };
    settings[1] = Setting { mode: 1, pulse_width: 300, pulse_current: 30 };
    let mut out = [0; 7];
    assert_eq!(codec::write_init(init, &mut out).used, 6);
    assert_eq!(out[..6], CASE_5);
    assert_eq!(codec::write_update(&settings, 2, &mut out).used, 7);
    assert_eq!(out, CASE_6);
    assert_eq!(codec::write_stop(&mut out).used, 1);
    assert_eq!(out[0], 0xC0);

    let mut played = fresh();
    assert_eq!(last(&mut played, &CASE_5), 0);
    assert_eq!((played.record.state, played.record.run.list), (1, init));
    assert_eq!(last(&mut played, &CASE_6), 0);
    let waiting = played.record.run.waiting;
    assert_eq!((waiting[0], waiting[1], waiting[2]), (settings[0], settings[2], settings[1]));
    assert_eq!(last(&mut played, &[0xC0]), 0);
    assert_eq!((played.record.state, played.record.hold_a, played.record.hold_b), (0, 15, 15));
}

#[test]
fn cases_8_and_9() {
    assert_eq!(last(&mut fresh(), &init(9, 2045)), 0);
    assert_eq!(last(&mut fresh(), &init(9, 2046)), 4);
    for (width, answer) in [(9, 4), (10, 0), (500, 0), (501, 4)] {
        assert_eq!(last(&mut fresh(), &single(0, width, 1)), answer);
    }
}

#[test]
fn cases_10_and_11() {
    assert_eq!(last(&mut fresh(), &init(9, 100)), 0);
    assert_eq!(last(&mut fresh(), &init(8, 100)), 5);
    let mut settings = [Setting { mode: 0, pulse_width: 100, pulse_current: 10 }; 8];
    settings[4].mode = 1;
    let doublet = framed(Command::Update(settings), 8);
    for (main, answer) in [(25, 0), (24, 5)] {
        let mut played = fresh();
        assert_eq!(last(&mut played, &init(9, main)), 0);
        assert_eq!(last(&mut played, &doublet), answer);
    }
}

/// Case 12 up to a clock: the pulses as clock and channel.
fn case_12(played: &mut Played, clock: u32) -> Vec<(u32, u8)> {
    assert_eq!(last(played, &CASE_5), 0);
    let mut pulses = Vec::new();
    while played.record.clock < clock {
        if played.record.clock == 5 {
            assert_eq!(last(played, &CASE_6), 0);
        }
        let said = played.tick();
        pulses.extend([said.a, said.b].map(|pulse| (pulse.clock, pulse.channel)));
    }
    pulses.retain(|pulse| *pulse != (0, 0));
    pulses
}

#[test]
fn case_12_pulses_and_trip() {
    let expected = [(100, 1), (115, 3), (145, 3), (200, 1), (215, 3), (245, 3)];
    let mut played = fresh();
    assert_eq!(case_12(&mut played, 254), expected);
    assert_eq!(played.record.state, 1);
    let mut played = fresh();
    assert_eq!(case_12(&mut played, 255), expected);
    assert_eq!(played.record.state, 2);
    assert_eq!(played.all.last(), Some(&independent::Record::Trip { clock: 255, cause: 2 }));
    let mut played = fresh();
    assert_eq!(case_12(&mut played, 2_000), expected);
}

#[test]
fn case_13_readout() {
    let mut played = Played::new(LOOSEST, 32);
    case_12(&mut played, 145);
    let expected = [
        0x02, 0x64, 0x00, 0x00, 0x00, 0x01, 0xC8, 0x00, 0x28, 0x02, 0x73, 0x00, 0x00, 0x00, 0x03,
        0x2C, 0x01, 0x1E, 0x02, 0x91, 0x00, 0x00, 0x00, 0x03, 0x2C, 0x01, 0x1E,
    ];
    assert_eq!(played.read_out(), expected);
}

#[test]
fn case_14_update_in_idle() {
    assert_eq!(fresh().frame(&CASE_6), [6, 2, 2, 2, 2, 2, 2]);
    let mut played = fresh();
    played.frame(&CASE_1[..2]);
    let said = played.byte(0xBB);
    assert_eq!((said.answer, said.reply, played.record.partial.len), (6, 0x40, 0));
}

#[test]
fn case_15_single_twice() {
    let mut played = fresh();
    assert_eq!(last(&mut played, &single(0, 100, 10)), 0);
    assert_eq!(last(&mut played, &single(0, 100, 10)), 8);
    assert_eq!(last(&mut played, &single(3, 100, 10)), 8);
    assert_eq!(last(&mut played, &single(4, 0, 10)), 0);
    assert_eq!(last(&mut played, &single(7, 100, 10)), 8);
    for _ in 0..14 {
        played.tick();
    }
    assert_eq!(last(&mut played, &single(7, 100, 10)), 8);
    played.tick();
    assert_eq!(last(&mut played, &single(7, 100, 10)), 0);
}

#[test]
fn case_16_capacities() {
    for (capacity, answer) in [(0, 13), (15, 13), (4_097, 13), (usize::MAX, 13)] {
        assert_eq!(BoxRecord::new(LOOSEST, capacity), Err(answer));
    }
    assert!(BoxRecord::new(LOOSEST, 16).expect("taken").good());
    assert!(BoxRecord::new(LOOSEST, 4_096).expect("taken").good());
}

/// "Feeding the watchdog from frames with a bad check" is an error; a frame that is refused for
/// something else feeds it.
#[test]
fn watchdog() {
    for (frame, count) in [(&CASE_1[..], 0), (&[0xE3, 0x21, 0x48, 0x78], 100), (&[0xC1], 100)] {
        let mut played = fresh();
        last(&mut played, &CASE_5);
        for _ in 0..100 {
            played.tick();
        }
        last(&mut played, frame);
        assert_eq!((played.record.state, played.record.run.watch), (1, count));
    }
}

/// "An Update left open by a watchdog trip still finishes, with 3 or 10."
#[test]
fn update_left_open() {
    for (first, answer) in [(0xBB, 10), (0xBA, 3)] {
        let mut played = fresh();
        last(&mut played, &CASE_5);
        assert_eq!(played.byte(first).answer, 1);
        for _ in 0..250 {
            played.tick();
        }
        assert_eq!((played.record.state, played.record.partial.kept), (2, 7));
        assert_eq!(last(&mut played, &CASE_6[1..]), answer);
        assert_eq!(played.byte(0xBB).answer, 10);
        assert_eq!(last(&mut played, &CASE_1), 10);
        assert_eq!(last(&mut played, &[0xC0]), 0);
    }
}

/// "Keeping the old settings after answer 9" is an error.
#[test]
fn over_a_limit() {
    let strict = Profile { currents: [127, 127, 29, 127, 127, 127, 127, 127], ..LOOSEST };
    let mut played = Played::new(strict, 64);
    last(&mut played, &CASE_5);
    assert_eq!(last(&mut played, &CASE_6), 9);
    assert_eq!((played.record.state, played.record.run), (2, Default::default()));
    assert_eq!(played.record.hold_a, 15);
}

/// "Reading N_Factor as a period" is an error; "here it counts skips."
#[test]
fn low_frequency() {
    let mut played = Played::new(Profile { watchdog: 600_000, ..LOOSEST }, 4_096);
    let list =
        Init { n_factor: 2, channel_stim: 1, channel_lf: 0xFF, group_time: 3, main_time: 18 };
    last(&mut played, &framed(Command::Init(list), 1));
    let mut settings = [Setting::default(); 8];
    settings[0] = Setting { mode: 0, pulse_width: 100, pulse_current: 10 };
    last(&mut played, &framed(Command::Update(settings), 1));
    let clocks: Vec<u32> = (0..1_200).map(|_| played.tick().a.clock).filter(|&c| c > 0).collect();
    assert_eq!(clocks, [200, 500, 800, 1_100]);
}

/// "A finished frame is tested: 3; 10; 4; 6 or 7; 5; 8; 9."
#[test]
fn order_of_tests() {
    let strict = Profile { currents: [20; 8], shortest: 300, ..LOOSEST };
    let fresh = || Played::new(strict, 4_096);
    let wrong = |mut frame: Vec<u8>| {
        frame[0] ^= 4;
        frame
    };
    let update = |mode, pulse_width| {
        framed(Command::Update([Setting { mode, pulse_width, pulse_current: 100 }; 8]), 8)
    };

    let mut idle = fresh();
    assert_eq!(last(&mut idle, &single(0, 100, 20)), 0);
    assert_eq!(last(&mut idle, &wrong(single(0, 9, 21))), 3);
    assert_eq!(last(&mut idle, &single(0, 9, 21)), 4);
    assert_eq!(last(&mut idle, &single(0, 100, 21)), 8);
    assert_eq!(last(&mut idle, &init(2, 4)), 4);
    assert_eq!(last(&mut idle, &init(8, 4)), 5);
    assert_eq!(last(&mut idle, &init(9, 57)), 9);

    let mut tripped = idle;
    assert_eq!(tripped.record.state, 2);
    assert_eq!(last(&mut tripped, &wrong(single(0, 9, 21))), 3);
    assert_eq!(last(&mut tripped, &single(0, 9, 21)), 10);
    assert_eq!(last(&mut tripped, &init(9, 57)), 9);
    assert_eq!(tripped.all.last(), Some(&independent::Record::Trip { clock: 0, cause: 1 }));
    assert_eq!(last(&mut tripped, &init(29, 58)), 0);

    let mut running = tripped;
    assert_eq!(running.record.state, 1);
    assert_eq!(last(&mut running, &wrong(single(0, 9, 21))), 3);
    assert_eq!(last(&mut running, &single(0, 9, 21)), 4);
    assert_eq!(last(&mut running, &single(0, 100, 21)), 7);
    assert_eq!(last(&mut running, &wrong(update(3, 9))), 3);
    assert_eq!(last(&mut running, &update(3, 100)), 4);
    assert_eq!(last(&mut running, &update(2, 9)), 4);
    assert_eq!(last(&mut running, &update(1, 100)), 5);
    assert_eq!(last(&mut running, &update(0, 100)), 9);
    assert_eq!(running.record.state, 2);
}

/// "Accepted, it waits, replacing an earlier one, and rules from the next position 0 on."
#[test]
fn waiting_update() {
    let mut played = fresh();
    last(&mut played, &CASE_5);
    let update = |pulse_width| {
        let mut settings = [Setting::default(); 8];
        settings[0] = Setting { mode: 0, pulse_width, pulse_current: 10 };
        framed(Command::Update(settings), 2)
    };
    let mut widths = Vec::new();
    for (clock, width) in [(0, 100), (98, 101), (99, 102), (100, 103), (199, 104), (200, 105)] {
        while played.record.clock < clock {
            widths.push(played.tick().a.width);
        }
        assert_eq!(last(&mut played, &update(width)), 0);
        assert_eq!(played.record.run.waits, 1);
    }
    widths.retain(|width| *width > 0);
    assert_eq!(widths, [102, 104]);
}
