//! Document 01's cases of the box, through the guard.

use crate::sent::{self, begun, UPDATE};
use yarrowbell::{Answer, Guard, Profile, Released, State};

const SINGLE: [u8; 4] = [0xEF, 0x01, 0x48, 0x27];

fn answers(guard: &mut Guard, bytes: &[u8]) -> Vec<(u8, Option<u8>)> {
    let told = sent::all(guard, bytes).into_iter();
    told.map(|told| (told.answer.number(), told.reply)).collect()
}

fn ticks(guard: &mut Guard, count: usize) -> Vec<Released> {
    let mut pulses = Vec::new();
    for _ in 0..count {
        let told = guard.tick().expect("the clock is far from its end");
        assert_eq!((told.answer, told.reply), (Answer::Done, None));
        pulses.extend(told.released());
    }
    pulses
}

#[test]
fn case_12() {
    let mut guard = begun(4096);
    let first = |clock| Released { clock, channel: 1, width: 200, current: 40 };
    let third = |clock| Released { clock, channel: 3, width: 300, current: 30 };
    let pulses = [first(100), third(115), third(145), first(200), third(215), third(245)];
    assert_eq!(ticks(&mut guard, 249), pulses);
    assert_eq!(guard.state(), State::Running);
    assert_eq!(ticks(&mut guard, 1), []);
    assert_eq!((guard.clock(), guard.state()), (255, State::Tripped));
    assert_eq!(ticks(&mut guard, 5_000), []);
    let trace = guard.trace();
    assert_eq!(trace[trace.len() - 6..], [3, 255, 0, 0, 0, 2]);
}

#[test]
fn case_13() {
    let mut guard = begun(32);
    ticks(&mut guard, 140);
    assert_eq!(guard.record().clock, 145);
    let trace = [
        [0x02, 0x64, 0x00, 0x00, 0x00, 0x01, 0xC8, 0x00, 0x28],
        [0x02, 0x73, 0x00, 0x00, 0x00, 0x03, 0x2C, 0x01, 0x1E],
        [0x02, 0x91, 0x00, 0x00, 0x00, 0x03, 0x2C, 0x01, 0x1E],
    ]
    .concat();
    assert_eq!(guard.trace(), trace);
    let mut out = [0xAA; 30];
    assert_eq!(guard.readout(&mut out), Ok(27));
    assert_eq!(out[..27], trace);
    assert_eq!(out[27..], [0xAA; 3]);
}

#[test]
fn case_14() {
    let mut guard = Guard::new(Profile::LOOSEST, 64).expect("profile and capacity are good");
    let mut expected = vec![(6, Some(0x40))];
    expected.extend([(2, None); 6]);
    assert_eq!(answers(&mut guard, &UPDATE), expected);
}

#[test]
fn case_15() {
    let mut guard = Guard::new(Profile::LOOSEST, 64).expect("profile and capacity are good");
    let unfinished = [(1, None); 3];
    let twice = [SINGLE, SINGLE].concat();
    let expected = [&unfinished[..], &[(0, Some(0xC1))], &unfinished, &[(8, Some(0xC0))]].concat();
    assert_eq!(answers(&mut guard, &twice), expected);
    let trace = [&[2, 0, 0, 0, 0, 1, 200, 0, 39][..], &[1, 0, 0, 0, 0, 3, 8]].concat();
    assert_eq!(guard.trace()[7..], trace);
}

#[test]
fn case_16() {
    let refusal = Guard::new(Profile::LOOSEST, 15).expect_err("15 bytes are too few");
    assert_eq!(refusal.answer(), Answer::RingOutside);
    for capacity in [16, 4096] {
        let guard = Guard::new(Profile::LOOSEST, capacity).expect("profile and capacity are good");
        assert_eq!(guard.trace(), [0u8; 0]);
    }
    assert!(Guard::new(Profile::LOOSEST, 4097).is_err());
}
