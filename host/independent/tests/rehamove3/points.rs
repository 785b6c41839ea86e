//! The values of a point, and its reserved bits.

use independent::rehamove3::{compose, read, write, ChannelConfig, Command, Point, Pulse};

fn config(pulse: Pulse) -> Command {
    Command::LlChannelConfig(ChannelConfig { execution: 1, channel: 2, pulse })
}

/// Whether a packet of this data is read, with its command and its net charge.
fn found(data: &[u8]) -> Option<(Command, i32)> {
    let reading = read(&compose(3, 2, data), 65);
    assert_eq!(reading.answer, if reading.command.is_some() { 0 } else { 4 });
    reading.command.map(|command| (command, reading.charge))
}

/// A pulse of one point, of these 32 bits.
fn one(bits: u32) -> Vec<u8> {
    [&[0xC0][..], &bits.to_be_bytes()].concat()
}

/// Codes around those where another rule begins.
const EDGES: [u16; 13] = [0, 39, 40, 41, 299, 300, 301, 559, 560, 561, 600, 601, 1023];

/// Every duration beside the codes of `EDGES`, and every 61st and the last beside every code.
#[test]
fn durations_and_codes() {
    for duration in 0..4096 {
        let all = duration % 61 == 0 || duration == 4095;
        for code in (0..1024).filter(|code| all || EDGES.contains(code)) {
            let point = Point { duration, code };
            let bits = u32::from(duration) << 20 | u32::from(code) << 10;
            let good = (40..=560).contains(&code);
            let charge = i32::from(duration) * (i32::from(code) - 300);
            let expected = (config(Pulse::of_points(&[point])), charge);
            assert_eq!(found(&one(bits)), good.then_some(expected), "{point:?}");
        }
    }
}

/// Each of the ten, in each point of each number of points.
#[test]
fn reserved_bits() {
    for number in 1..=16 {
        let first = 0xC0 | (number - 1) as u8;
        let good = [&[first][..], &[0x00, 0x04, 0xB0, 0x00].repeat(number)].concat();
        assert!(found(&good).is_some());
        for point in 0..number {
            for bit in 0..10 {
                let mut data = good.clone();
                data[1 + 4 * point + 3 - bit / 8] |= 1 << (bit % 8);
                assert_eq!(found(&data), None, "{data:02X?}");
            }
        }
        let reserved = [&[first | 0x10], &good[1..]].concat();
        assert_eq!(found(&reserved), None);
    }
}

/// All reserved values of a point that is good else.
#[test]
fn reserved_values() {
    for reserved in 0..1024 {
        let read = found(&one(100 << 20 | 300 << 10 | reserved)).is_some();
        assert_eq!(read, reserved == 0);
    }
}

/// A point that is not good is not written, and loses no bits to pass for one that is.
#[test]
fn every_value_written() {
    for value in 0..=u16::MAX {
        let duration = Point { duration: value, code: 300 };
        let code = Point { duration: 0, code: value };
        for (point, good) in [(duration, value <= 4095), (code, (40..=560).contains(&value))] {
            let command = config(Pulse::of_points(&[point]));
            let bytes = write(1, command);
            assert_eq!(bytes.is_some(), good, "{point:?}");
            if let Some(bytes) = bytes {
                assert_eq!(read(&bytes, 5).command, Some(command));
            }
        }
    }
}

/// A bad point at each place of each number of points.
#[test]
fn a_bad_point_anywhere() {
    let good = Point { duration: 0, code: 300 };
    for bad in [Point { code: 39, ..good }, Point { code: 561, ..good }] {
        for number in 1..=16 {
            for place in 0..number {
                let mut points = vec![good; number];
                assert!(write(1, config(Pulse::of_points(&points))).is_some());
                points[place] = bad;
                let pulse = Pulse::of_points(&points);
                assert_eq!((write(1, config(pulse)), pulse.charge()), (None, None));
                assert_eq!(found(&config(pulse).data()), None);
            }
        }
    }
}
