//! Random commands of the RehaMove3 and their packets; half of the pulses have no net charge.

use super::random_bytes::{byte, bytes, edge_or};
use independent::rehamove3::{compose, ChannelConfig, Command, Point, Pulse};
use rand::rngs::SmallRng;
use rand::seq::SliceRandom;
use rand::Rng;

/// Section 6 of source 002.
const RESULTS: [u8; 7] = [0, 1, 2, 4, 7, 10, 11];

/// Those that are good or just not, and those of which bytes are stuffed.
const DURATIONS: [u16; 12] =
    [0, 1, 0x0F0, 0x0FF, 0x810, 0x818, 0x81F, 0xF00, 0xF0F, 4094, 4095, 4096];
const CODES: [u16; 13] = [39, 40, 60, 124, 299, 300, 301, 316, 380, 508, 560, 561, 1023];

/// A command that is carried, with any values; most of them are good.
pub fn command(rng: &mut SmallRng) -> Command {
    let result =
        if rng.gen_ratio(1, 10) { rng.gen() } else { RESULTS[rng.gen_range(0..RESULTS.len())] };
    match rng.gen_range(0..10) {
        0 => Command::LlInit { voltage: edge_or(rng, &[0, 6, 7, 8, 255], 0..=6) as u8 },
        1 => Command::LlInitAck { result },
        2 => {
            let electrode = if rng.gen() { rng.gen_range(0..=4) } else { byte(rng, 5) };
            Command::LlChannelConfigAck { result, electrode }
        }
        3 => Command::LlStop,
        4 => Command::LlStopAck { result },
        _ => Command::LlChannelConfig(ChannelConfig {
            execution: edge_or(rng, &[2, 255], 0..=1) as u8,
            channel: edge_or(rng, &[4, 255], 0..=3) as u8,
            pulse: pulse(rng),
        }),
    }
}

/// A pulse, one time in sixteen of a wrong number of points or with one behind its last.
pub fn pulse(rng: &mut SmallRng) -> Pulse {
    let number = rng.gen_range(1..=16);
    let mut points = if rng.gen() {
        balanced(rng, number)
    } else {
        (0..number).map(|_| Point { duration: duration(rng), code: code(rng) }).collect()
    };
    points.shuffle(rng);
    let mut pulse = Pulse::of_points(&points);
    if rng.gen_ratio(1, 16) {
        match rng.gen_range(0..4) {
            0 => pulse.number = [0, 17, 255, 256, 65_535][rng.gen_range(0..5)],
            1 => pulse.number = rng.gen_range(1..=16),
            2 => pulse.points[rng.gen_range(0..16)] = Point { duration: 0, code: code(rng) },
            _ => pulse.points[rng.gen_range(0..16)] = Point { duration: duration(rng), code: 0 },
        }
    }
    pulse
}

/// Points whose charges come to nothing: pairs of opposite currents, and then parts of these.
fn balanced(rng: &mut SmallRng, number: usize) -> Vec<Point> {
    if number == 1 {
        return vec![Point { duration: duration(rng), code: 300 }];
    }
    let mut points = Vec::new();
    for _ in 0..rng.gen_range(1..=number / 2) {
        points.extend(pair(rng));
    }
    while points.len() < number {
        let place = rng.gen_range(0..points.len());
        let part = rng.gen_range(0..=points[place].duration);
        points[place].duration -= part;
        points.push(Point { duration: part, ..points[place] });
    }
    points
}

/// Two points of the same duration, or the second of a longer one by as much as its current is less.
fn pair(rng: &mut SmallRng) -> [Point; 2] {
    let times = if rng.gen() { 1 } else { rng.gen_range(1..=15) };
    let short = if times == 1 {
        edge_or(rng, &DURATIONS[..DURATIONS.len() - 1], 0..=4095)
    } else {
        rng.gen_range(0..=4095 / times)
    };
    let current = rng.gen_range(0..=260 / times);
    let [first, second] = [300 + current * times, 300 - current];
    let turned = rng.gen();
    [(short, first), (short * times, second)]
        .map(|(duration, code)| Point { duration, code: if turned { 600 - code } else { code } })
}

fn duration(rng: &mut SmallRng) -> u16 {
    edge_or(rng, &DURATIONS, 0..=4095)
}

fn code(rng: &mut SmallRng) -> u16 {
    edge_or(rng, &CODES, 40..=560)
}

/// A whole packet: of a command that is carried, one time in eight with a byte of its data too many, too
/// few or changed, or of any number with any data.
pub fn packet(rng: &mut SmallRng) -> Vec<u8> {
    let (packet, command) = (rng.gen_range(0..64), command(rng));
    if rng.gen_ratio(2, 3) {
        let mut data = command.data();
        match rng.gen_range(0..24) {
            0 => data.push(byte(rng, 5)),
            1 => drop(data.pop()),
            2 if !data.is_empty() => {
                let place = rng.gen_range(0..data.len());
                data[place] ^= 1 << rng.gen_range(0..8);
            }
            _ => {}
        }
        return compose(packet, command.number(), &data);
    }
    let number = if rng.gen() { rng.gen_range(0..1024) } else { command.number() };
    let longest = [2, 8, 66, 1_200][rng.gen_range(0..4)];
    compose(packet, number, &bytes(rng, longest))
}
