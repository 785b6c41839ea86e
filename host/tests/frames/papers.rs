//! The worked examples of source 003, section 5.8, which source 004 has too, and the cases of
//! document 01 that are about frames, as the bytes written there.

use crate::agree;
use independent::{Command, Frame, Init, Setting, Single};
use yarrowbell::{reply, Answer};

/// A command and its frame, each made from the other.
fn stands(command: Command, count: usize, frame: &[u8]) {
    assert_eq!(agree::write(&command, count, agree::ROOM), Ok(frame.to_vec()));
    assert_eq!(agree::read(frame, count), Ok(Frame { command, used: frame.len() }));
}

/// The bytes as the papers spell them, X for a bit without a meaning, in which any value reads alike.
fn spelt(command: Command, count: usize, frame: &[u8], spelling: &[&str]) {
    let filled = |x: &str| -> Vec<u8> {
        let byte = |bits: &&str| {
            assert_eq!(bits.len(), 8);
            u8::from_str_radix(&bits.replace('X', x), 2).expect("bits")
        };
        spelling.iter().map(byte).collect()
    };
    let (clear, set) = (filled("0"), filled("1"));
    assert_eq!(clear, frame);
    let free: Vec<u8> = clear.iter().zip(&set).map(|(clear, set)| clear ^ set).collect();
    assert_eq!(independent::free_bits(command.kind(), count), free);
    assert_eq!(agree::read(&set, count), Ok(Frame { command, used: frame.len() }));
}

const SINGLE_1: Command =
    Command::Single(Single { channel_number: 2, pulse_width: 200, pulse_current: 120 });

/// "In hex code the command is E2 21 48 78. The return value would be in hex C1 [..] else C0."
/// Case 1 of document 01.
#[test]
fn single_pulse_example_1() {
    let frame = [0xE2, 0x21, 0x48, 0x78];
    stands(SINGLE_1, 1, &frame);
    spelt(SINGLE_1, 1, &frame, &["11100010", "0010XX01", "01001000", "01111000"]);
    assert_eq!(reply(3, Answer::Done), 0xC1);
    assert_eq!(reply(3, Answer::NotGood), 0xC0);
}

/// Case 2 of document 01. The check is that of 5 + 221 + 55; the papers' first sum has 51 there.
#[test]
fn single_pulse_example_2() {
    let command =
        Command::Single(Single { channel_number: 5, pulse_width: 221, pulse_current: 55 });
    let frame = [0xF9, 0x51, 0x5D, 0x37];
    stands(command, 1, &frame);
    spelt(command, 1, &frame, &["11111001", "0101XX01", "01011101", "00110111"]);
    assert_eq!(independent::check(&command), 25);
}

#[test]
fn initialisation_example_1() {
    let command = Command::Init(Init {
        n_factor: 1,
        channel_stim: 19,
        channel_lf: 16,
        group_time: 7,
        main_time: 98,
    });
    let frame = [0x94, 0x44, 0x62, 0x00, 0x70, 0x62];
    stands(command, 3, &frame);
    let spelling = ["10010100", "01000100", "01100010", "0000XX00", "01110000", "01100010"];
    spelt(command, 3, &frame, &spelling);
    assert_eq!(independent::check(&command), 5);
}

/// The sum is 214, as its binary form is; the papers call it 141.
#[test]
fn initialisation_example_2() {
    let command = Command::Init(Init {
        n_factor: 2,
        channel_stim: 166,
        channel_lf: 6,
        group_time: 9,
        main_time: 31,
    });
    let frame = [0x99, 0x29, 0x40, 0x61, 0x10, 0x1F];
    stands(command, 4, &frame);
    let spelling = ["10011001", "00101001", "01000000", "0110XX01", "00010000", "00011111"];
    spelt(command, 4, &frame, &spelling);
    assert_eq!(independent::check(&command), 6);
}

/// The check is 27, as its binary form is; the papers call it 28. Their byte 11 has a digit too few
/// in source 003 and another value in source 004; the hex code in both is right.
#[test]
fn update_example() {
    let mut settings = [Setting::default(); 8];
    settings[0] = Setting { mode: 0, pulse_width: 100, pulse_current: 52 };
    settings[1] = Setting { mode: 2, pulse_width: 200, pulse_current: 55 };
    settings[2] = Setting { mode: 1, pulse_width: 300, pulse_current: 72 };
    settings[3] = Setting { mode: 1, pulse_width: 400, pulse_current: 92 };
    let command = Command::Update(settings);
    let frame = [0xBB, 0x00, 0x64, 0x34, 0x41, 0x48, 0x37, 0x22, 0x2C, 0x48, 0x23, 0x10, 0x5C];
    stands(command, 4, &frame);
    let spelling = [
        "10111011", "000XXX00", "01100100", "00110100", "010XXX01", "01001000", "00110111",
        "001XXX10", "00101100", "01001000", "001XXX11", "00010000", "01011100",
    ];
    spelt(command, 4, &frame, &spelling);
    assert_eq!(independent::check(&command), 27);
}

/// Byte 11 as source 004 spells it, 00100000, would be another width, and its check wrong.
#[test]
fn update_example_of_source_004_as_spelt() {
    let frame = [0xBB, 0x00, 0x64, 0x34, 0x41, 0x48, 0x37, 0x22, 0x2C, 0x48, 0x23, 0x20, 0x5C];
    assert_eq!(agree::read(&frame, 4), Err(3));
}

/// Source 003, section 5.7: Ident in bits 7 and 6, and 1 in bit 0 if all went well. Document 01: "No
/// command decided: reply 0."
#[test]
fn acknowledgements() {
    for (ident, well, badly) in [(0, 0x01, 0x00), (1, 0x41, 0x40), (2, 0x81, 0x80), (3, 0xC1, 0xC0)]
    {
        for answer in Answer::ALL {
            let byte = match answer {
                Answer::Done => well,
                _ if answer.decides() => badly,
                _ => 0x00,
            };
            assert_eq!(reply(ident, answer), byte);
        }
    }
}

#[test]
fn case_3_do_not_care_bits() {
    let read = Frame { command: SINGLE_1, used: 4 };
    assert_eq!(agree::read(&[0xE2, 0x2D, 0x48, 0x78], 1), Ok(read));
}

#[test]
fn case_4_wrong_check() {
    assert_eq!(agree::read(&[0xE3, 0x21, 0x48, 0x78], 1), Err(3));
    assert_eq!(reply(3, Answer::WrongCheck), 0xC0);
}

fn init_of_case_5(main_time: u16) -> Command {
    Command::Init(Init {
        n_factor: 0,
        channel_stim: 0b101,
        channel_lf: 0,
        group_time: 3,
        main_time,
    })
}

#[test]
fn case_5_init() {
    stands(init_of_case_5(18), 2, &[0x88, 0x01, 0x20, 0x00, 0x30, 0x12]);
}

#[test]
fn case_6_update() {
    let mut settings = [Setting::default(); 8];
    settings[0] = Setting { mode: 0, pulse_width: 200, pulse_current: 40 };
    settings[1] = Setting { mode: 1, pulse_width: 300, pulse_current: 30 };
    stands(Command::Update(settings), 2, &[0xBB, 0x01, 0x48, 0x28, 0x22, 0x2C, 0x1E]);
}

#[test]
fn case_7_stop() {
    stands(Command::Stop, 1, &[0xC0]);
}

#[test]
fn case_8_main_time() {
    stands(init_of_case_5(2045), 2, &[0x94, 0x01, 0x20, 0x00, 0x3F, 0x7D]);
    assert_eq!(agree::read(&[0x98, 0x01, 0x20, 0x00, 0x3F, 0x7E], 2), Err(4));
    assert_eq!(agree::write(&init_of_case_5(2046), 2, agree::ROOM), Err(4));
}

#[test]
fn case_9_width() {
    let single = |pulse_width| {
        Command::Single(Single { channel_number: 2, pulse_width, pulse_current: 120 })
    };
    assert_eq!(agree::read(&[0xE3, 0x20, 0x09, 0x78], 1), Err(4));
    assert_eq!(agree::write(&single(9), 1, agree::ROOM), Err(4));
    stands(single(10), 1, &[0xE4, 0x20, 0x0A, 0x78]);
    stands(single(500), 1, &[0xEE, 0x23, 0x74, 0x78]);
    assert_eq!(agree::read(&[0xEF, 0x23, 0x75, 0x78], 1), Err(4));
    assert_eq!(agree::write(&single(501), 1, agree::ROOM), Err(4));
}
