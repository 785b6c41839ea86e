//! Reserved bits: "should be set to 0", and 4 if one is not.

use crate::agree::{self, refused};
use crate::device::LONGEST_DATA;
use crate::made::{config, pulse};
use independent::rehamove3::{compose, Command};

/// The packet of this data is refused.
fn refuses(number: u16, data: &[u8]) {
    let bytes = compose(1, number, data);
    assert_eq!(agree::read(&bytes, LONGEST_DATA), refused(4, bytes.len()), "{data:02X?}");
}

/// Every byte of an Ll_init's data: four bits reserved, the high voltage, one bit reserved.
#[test]
fn of_an_init() {
    let mut good = vec![];
    for byte in 0..=255 {
        let voltage = byte >> 1;
        if byte & 1 == 0 && voltage <= 6 {
            let bytes = compose(1, 0, &[byte]);
            let reading = agree::read(&bytes, 1);
            assert_eq!((reading.answer, reading.command), (0, Some(Command::LlInit { voltage })));
            good.push(byte);
        } else {
            refuses(0, &[byte]);
        }
    }
    assert_eq!(good, [0, 2, 4, 6, 8, 10, 12]);
}

/// Every first byte of an Ll_channel_config's data, with as many points as it says.
#[test]
fn of_a_first_byte() {
    let mut good = 0;
    for byte in 0..=255u8 {
        let mut data = vec![byte];
        data.extend([0, 0x14, 0xB0, 0].repeat(usize::from(byte % 16) + 1));
        if byte / 16 % 2 == 1 {
            refuses(2, &data);
            continue;
        }
        let Some(Command::LlChannelConfig(config)) =
            agree::read(&compose(1, 2, &data), LONGEST_DATA).command
        else {
            panic!("{byte:02X}");
        };
        assert_eq!((config.execution, config.channel), (byte / 128, byte / 32 % 4));
        assert_eq!(config.pulse.number, u16::from(byte % 16) + 1);
        good += 1;
    }
    assert_eq!(good, 128);
}

/// Each of the ten behind every point's code, alone and with all the others.
#[test]
fn of_every_point() {
    let mut tried = 0;
    for number in 1..=16 {
        let whole = config(pulse(&vec![(250, 300); number])).data();
        for place in 0..number {
            let last = 1 + 4 * place + 3;
            for bit in 0..10 {
                let mut data = whole.clone();
                data[last - bit / 8] |= 1 << (bit % 8);
                refuses(2, &data);
                tried += 1;
            }
            let mut data = whole.clone();
            data[last] = 0xFF;
            data[last - 1] |= 3;
            refuses(2, &data);
        }
    }
    assert_eq!(tried, 136 * 10);
}
