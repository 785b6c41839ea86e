//! Pulses of 1 to 16 points, and their net charges.

use independent::rehamove3::{compose, read, write, ChannelConfig, Command, Point, Pulse};
use rand::rngs::SmallRng;
use rand::{Rng, SeedableRng};

fn config(execution: u8, pulse: Pulse) -> Command {
    Command::LlChannelConfig(ChannelConfig { execution, channel: 1, pulse })
}

fn point(rng: &mut SmallRng) -> Point {
    Point { duration: rng.gen_range(0..4096), code: rng.gen_range(40..=560) }
}

/// "A signed sum in half milliamp microseconds", here in 64 bits.
fn sum(points: &[Point]) -> i64 {
    points.iter().map(|point| i64::from(point.duration) * (i64::from(point.code) - 300)).sum()
}

/// "Reading shows any net charge", and it is written exactly if that is 0, executed or not.
fn weighed(points: &[Point]) -> bool {
    let pulse = Pulse::of_points(points);
    let charge = i32::try_from(sum(points)).expect("a net charge");
    assert_eq!(pulse.charge(), Some(charge));
    for execution in [0, 1] {
        let command = config(execution, pulse);
        let bytes = compose(7, 2, &command.data());
        let reading = read(&bytes, 65);
        assert_eq!((reading.answer, reading.used), (0, bytes.len()));
        assert_eq!((reading.command, reading.charge), (Some(command), charge));
        assert_eq!(write(7, command), (charge == 0).then_some(bytes));
    }
    charge == 0
}

#[test]
fn random_pulses() {
    let mut rng = SmallRng::seed_from_u64(0);
    for number in 1..=16 {
        for _ in 0..2_000 {
            let points: Vec<Point> = (0..number).map(|_| point(&mut rng)).collect();
            weighed(&points);
        }
    }
}

/// Each point beside its opposite; with a change of 1 in any duration or current it is not written.
#[test]
fn balanced_pulses() {
    let mut rng = SmallRng::seed_from_u64(1);
    for pairs in 1..=8 {
        for _ in 0..500 {
            let half: Vec<Point> = (0..pairs).map(|_| point(&mut rng)).collect();
            let opposite = half.iter().map(|point| Point { code: 600 - point.code, ..*point });
            let points: Vec<Point> = half.iter().copied().chain(opposite).collect();
            assert!(weighed(&points));
            let place = rng.gen_range(0..points.len());
            let Point { duration, code } = points[place];
            let mut changed = points.clone();
            changed[place].duration = if duration == 4095 { 4094 } else { duration + 1 };
            assert_eq!(weighed(&changed), code == 300);
            changed[place] = Point { duration, code: if code == 560 { 559 } else { code + 1 } };
            assert_eq!(weighed(&changed), duration == 0);
        }
    }
}

/// The greatest net charge of each number of points, and the least.
#[test]
fn greatest_net_charges() {
    for number in 1..=16 {
        for (code, one) in [(560, 4095 * 260), (40, -4095 * 260)] {
            let points = vec![Point { duration: 4095, code }; number];
            assert!(!weighed(&points));
            assert_eq!(Pulse::of_points(&points).charge(), Some(one * number as i32));
        }
    }
}

/// Points of no current or of no duration have no charge.
#[test]
fn without_charge() {
    for number in 1..=16 {
        for duration in [0, 1, 4095] {
            assert!(weighed(&vec![Point { duration, code: 300 }; number]));
        }
        for code in [40, 299, 301, 560] {
            assert!(weighed(&vec![Point { duration: 0, code }; number]));
        }
    }
}

/// Another number of points than 1 to 16, of which any are given.
#[test]
fn wrong_numbers_of_points() {
    for points in [[Point { duration: 10, code: 300 }; 16], [Point::default(); 16]] {
        for number in 0..=u16::MAX {
            let pulse = Pulse { number, points };
            let good = number == 16 && points[0].code == 300;
            assert_eq!(write(1, config(1, pulse)).is_some(), good, "{number}");
            assert_eq!(pulse.charge().is_some(), good, "{number}");
        }
    }
}

/// Behind the last point all are zeros.
#[test]
fn points_behind_the_last() {
    for number in 1..=16 {
        let pulse = Pulse::of_points(&vec![Point { duration: 10, code: 300 }; number]);
        assert!(write(1, config(1, pulse)).is_some());
        for place in number..16 {
            for other in [Point { duration: 1, code: 0 }, Point { duration: 0, code: 300 }] {
                let mut pulse = pulse;
                pulse.points[place] = other;
                assert_eq!((write(1, config(1, pulse)), pulse.charge()), (None, None));
            }
        }
    }
}
