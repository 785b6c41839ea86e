use crate::{agree, random};
use independent::{Command, Frame, Kind, Single};
use rand::Rng;

/// Every Channel_Number, Pulse_Width and Pulse_Current that the bits can hold, good or not.
fn each(mut case: impl FnMut(Single)) {
    for channel_number in 0..8 {
        for pulse_width in 0..512 {
            for pulse_current in 0..128 {
                case(Single { channel_number, pulse_width, pulse_current });
            }
        }
    }
}

#[test]
fn every_single_is_written() {
    let mut written = 0;
    each(|single| {
        let command = Command::Single(single);
        let good = matches!(single.pulse_width, 0 | 10..=500);
        let expected = if good { Ok(random::framed(&command, 1)) } else { Err(4) };
        assert_eq!(agree::write(&command, 1, agree::ROOM), expected);
        written += usize::from(good);
    });
    assert_eq!(written, 8 * 492 * 128);
}

/// With all four values of the two don't-care bits.
#[test]
fn every_single_is_read() {
    let free = independent::free_bits(Kind::Single, 1);
    assert_eq!(free, [0, 0b1100, 0, 0]);
    each(|single| {
        let command = Command::Single(single);
        let good = matches!(single.pulse_width, 0 | 10..=500);
        let mut frame = random::framed(&command, 1);
        for filling in [0b0000, 0b0100, 0b1000, 0b1100] {
            frame[1] = frame[1] & !free[1] | filling;
            let expected = if good { Ok(Frame { command, used: 4 }) } else { Err(4) };
            assert_eq!(agree::read(&frame, 1), expected);
        }
    });
}

#[test]
fn every_single_with_a_wrong_check() {
    random::seeded(0..1, |rng| {
        each(|single| {
            let command = Command::Single(single);
            let wrong = (independent::check(&command) + rng.gen_range(1..32)) % 32;
            let frame = independent::compose(&command, 1, wrong);
            assert_eq!(agree::read(&frame, 8), Err(3));
        });
    });
}
