//! The net charge of a pulse.

use crate::agree::{self, ROOM};
use crate::device::LONGEST_DATA;
use crate::made::{config, pulse};
use crate::random_pulses;
use crate::seeded::seeded;
use independent::rehamove3::{compose, ChannelConfig, Command, Point, Pulse};
use rand::Rng;

/// "A signed sum in half milliamp microseconds", in numbers that are wide enough for any.
fn summed(pulse: &Pulse) -> i64 {
    let charge = |point: &Point| i64::from(point.duration) * (i64::from(point.code) - 300);
    pulse.used().iter().map(charge).sum()
}

/// Weighed, read, and written if there is none.
fn tried(pulse: Pulse) -> i64 {
    let sum = summed(&pulse);
    assert_eq!(agree::charge(pulse).map(i64::from), Some(sum), "{pulse:?}");
    let command = config(pulse);
    let bytes = compose(5, 2, &command.data());
    let reading = agree::read(&bytes, LONGEST_DATA);
    assert_eq!((reading.answer, reading.command), (0, Some(command)));
    assert_eq!(i64::from(reading.charge), sum);
    let written = agree::write(5, command, ROOM);
    assert_eq!(written, if sum == 0 { Ok(bytes) } else { Err(4) });
    sum
}

/// The greatest and the least that 16 points can have, and what a small number would make of them.
#[test]
fn greatest_and_least() {
    assert_eq!(tried(pulse(&[(4_095, 560); 16])), 17_035_200);
    assert_eq!(tried(pulse(&[(4_095, 40); 16])), -17_035_200);
    for number in 1..=16 {
        for code in [40, 41, 299, 300, 301, 559, 560] {
            let each = 4_095 * (i64::from(code) - 300);
            assert_eq!(tried(pulse(&vec![(4_095, code); number])), each * number as i64);
        }
    }
}

/// What is 0 in 16 bits and is not, in steps of 65,536.
#[test]
fn not_zero_though_its_last_bits_are() {
    let mut tried_ones = 0;
    for times in 1..=16 {
        for sign in [1, -1] {
            // 4,096 times 16 is 65,536: 256 half milliamps for 256 µs.
            let code = (300 + sign * 256) as u16;
            assert_eq!(
                tried(pulse(&vec![(256, code); times])),
                i64::from(sign) * 65_536 * times as i64
            );
            tried_ones += 1;
        }
    }
    assert_eq!(tried_ones, 32);
}

/// There and back, and then one microsecond or one half milliamp more or less at each point.
#[test]
fn one_off() {
    let whole: Vec<(u16, u16)> =
        [(250, 340), (250, 260), (1_000, 310), (500, 280), (4_000, 555), (4_000, 45), (77, 300)]
            .into();
    assert_eq!(tried(pulse(&whole)), 0);
    let mut off = 0;
    for place in 0..whole.len() {
        for change in [-1, 1] {
            let mut points = whole.clone();
            points[place].0 = points[place].0.wrapping_add_signed(change);
            off += u32::from(tried(pulse(&points)) != 0);
            let mut points = whole.clone();
            points[place].1 = points[place].1.wrapping_add_signed(change);
            off += u32::from(tried(pulse(&points)) != 0);
        }
    }
    // A pause may last as long as it will.
    assert_eq!(off, 7 * 4 - 2);
}

/// "Even where nothing is executed", on every channel.
#[test]
fn whether_or_not_it_is_executed() {
    for (execution, channel) in [0, 1].into_iter().flat_map(|e| (0..4).map(move |c| (e, c))) {
        for (last, good) in [(260, true), (261, false)] {
            let pulse = pulse(&[(250, 340), (250, last)]);
            let config = ChannelConfig { execution, channel, pulse };
            let written = agree::write(5, Command::LlChannelConfig(config), ROOM);
            assert_eq!(written.is_ok(), good, "{config:?}");
        }
    }
}

/// In whichever order its points flow.
#[test]
fn the_order_of_the_points() {
    let points = [(10, 560), (20, 40), (4_095, 301), (0, 500), (3, 299)];
    let sum = tried(pulse(&points));
    for first in 0..points.len() {
        let mut turned = points;
        turned.rotate_left(first);
        assert_eq!(tried(pulse(&turned)), sum);
        turned.reverse();
        assert_eq!(tried(pulse(&turned)), sum);
    }
}

/// A million random pulses: half of them have no net charge.
#[test]
fn a_million() {
    let (mut balanced, mut not_balanced, mut not_good) = (0, 0, 0);
    let mut numbers = [0; 17];
    seeded(0..1_000_000, |rng| {
        let pulse = random_pulses::pulse(rng);
        match agree::charge(pulse) {
            None => not_good += 1,
            Some(charge) => {
                assert_eq!(i64::from(charge), summed(&pulse));
                *if charge == 0 { &mut balanced } else { &mut not_balanced } += 1;
                numbers[usize::from(pulse.number)] += 1;
                let written = agree::write(rng.gen_range(0..64), config(pulse), ROOM);
                assert_eq!(written.is_ok(), charge == 0);
            }
        }
    });
    let counts = [balanced, not_balanced, not_good];
    assert!(counts.iter().all(|&count| count > 100_000), "{counts:?}");
    assert!(numbers[1..].iter().all(|&count| count > 20_000), "{numbers:?}");
}
