//! Points: how many there are, and every duration and code.

use crate::agree::{self, refused, ROOM};
use crate::device::LONGEST_DATA;
use crate::made::{config, pulse};
use independent::rehamove3::{compose, Command, Point, Pulse};

/// The packet of this command is read as it, if the command is good, and else it is 4.
fn read(command: Command, good: bool) {
    let bytes = compose(9, 2, &command.data());
    let reading = agree::read(&bytes, LONGEST_DATA);
    if good {
        assert_eq!((reading.answer, reading.packet, reading.used), (0, 9, bytes.len()));
        assert_eq!((reading.command, reading.data), (Some(command), command.data()));
    } else {
        assert_eq!(reading, refused(4, bytes.len()), "{command:?}");
    }
}

/// Pulses that come to nothing, of this many points: a first one that the others balance, or none that
/// flow.
fn balanced(number: usize) -> [Pulse; 2] {
    let others = number as u16 - 1;
    let mut flowing = vec![(17, 300 - 13); number];
    flowing[0] = (17, 300 + 13 * others);
    [pulse(&flowing), pulse(&vec![(4_095, 300); number])]
}

/// "1 to 16 points".
#[test]
fn every_number() {
    for number in 1..=16 {
        for pulse in balanced(number) {
            let command = config(pulse);
            read(command, true);
            assert_eq!(command.data().len(), 1 + 4 * number);
            assert_eq!(agree::write(9, command, ROOM), Ok(compose(9, 2, &command.data())));
            assert_eq!(agree::charge(pulse), Some(0));
        }
    }
}

/// The data has as many points as its first byte says: from none to 18 of them, and bytes between.
#[test]
fn every_number_with_every_size() {
    let mut right = 0;
    for less in 0..16 {
        for size in 0..=73 {
            let mut data = vec![0x80 | less];
            data.extend([0x00, 0x64, 0xB0, 0x00].iter().cycle().take(size));
            let bytes = compose(9, 2, &data);
            let reading = agree::read(&bytes, LONGEST_DATA);
            if size == 4 * (usize::from(less) + 1) {
                assert_eq!((reading.answer, reading.data), (0, data));
                right += 1;
            } else {
                assert_eq!(reading, refused(4, bytes.len()), "{less} {size}");
            }
        }
    }
    assert_eq!(right, 16);
    let empty = compose(9, 2, &[]);
    assert_eq!(agree::read(&empty, LONGEST_DATA), refused(4, empty.len()));
}

/// 0 and 17 to 65,535 points, with points or without.
#[test]
fn every_wrong_number() {
    for number in (0..=u16::MAX).filter(|number| !(1..=16).contains(number)) {
        for point in [Point { duration: 7, code: 300 }, Point::default()] {
            let pulse = Pulse { number, points: [point; 16] };
            assert_eq!(agree::write(9, config(pulse), ROOM), Err(4));
            assert_eq!(agree::charge(pulse), None);
        }
    }
}

/// "Those past the number are zero": anything else is 4.
#[test]
fn points_behind_the_number() {
    for number in 1..=15 {
        for place in number..16 {
            for (duration, code) in [(1, 0), (0, 1), (0, 300), (7, 300), (65_535, 65_535)] {
                let [mut pulse, _] = balanced(number);
                pulse.points[place] = Point { duration, code };
                assert_eq!(agree::write(9, config(pulse), ROOM), Err(4));
                assert_eq!(agree::charge(pulse), None);
            }
        }
    }
}

/// 0 to 4,095 µs, first and last; 12 bits hold no more, so that a greater one can only be asked to be
/// written.
#[test]
fn every_duration() {
    for duration in 0..=u16::MAX {
        let there_and_back = pulse(&[(duration, 340), (0, 40), (duration, 260)]);
        let command = config(there_and_back);
        let written = agree::write(9, command, ROOM);
        let charge = agree::charge(there_and_back);
        if duration <= 4_095 {
            assert_eq!(written, Ok(compose(9, 2, &command.data())));
            assert_eq!(charge, Some(0));
            read(command, true);
            read(config(pulse(&[(duration, 301)])), true);
        } else {
            assert_eq!((written, charge), (Err(4), None));
        }
    }
}

/// 40 to 560 "whatever the duration", at each of three points.
#[test]
fn every_code() {
    let mut good_ones = 0;
    for code in 0..=u16::MAX {
        let good = (40..=560).contains(&code);
        let whole = [(0, 300), (0, 560), (0, 40)];
        for place in 0..3 {
            let mut points = whole;
            points[place].1 = code;
            let pulse = pulse(&points);
            let written = agree::write(9, config(pulse), ROOM);
            let whole = compose(9, 2, &config(pulse).data());
            assert_eq!(written, if good { Ok(whole) } else { Err(4) });
            assert_eq!(agree::charge(pulse), good.then_some(0));
            if code <= 0x3FF {
                read(config(pulse), good);
                points[place].0 = 4_095;
                read(config(crate::made::pulse(&points)), good);
            }
        }
        good_ones += u32::from(good);
    }
    assert_eq!(good_ones, 521);
}

/// Bounds, and one beyond, at every point of every number of points.
#[test]
fn bounds_at_every_point() {
    let mut refusals = 0;
    for number in 1..=16 {
        for place in 0..number {
            for (duration, code) in
                [(0, 40), (0, 560), (4_095, 300), (0, 39), (0, 561), (4_096, 300), (0, 600)]
            {
                let good = duration <= 4_095 && (40..=560).contains(&code);
                let [_, mut pulse] = balanced(number);
                pulse.points[place] = Point { duration, code };
                let written = agree::write(9, config(pulse), ROOM);
                assert_eq!(written.is_ok(), good, "{number} {place} {duration} {code}");
                assert_eq!(agree::charge(pulse), good.then_some(0));
                if duration <= 4_095 {
                    read(config(pulse), good);
                }
                refusals += u32::from(!good);
            }
        }
    }
    assert_eq!(refusals, 136 * 4);
}
