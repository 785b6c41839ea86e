//! The longest packet that is written.

use crate::agree::{self, ROOM};
use crate::made::pulse;
use independent::rehamove3::{ChannelConfig, Command};
use std::collections::BTreeSet;
use yarrowbell::rehamove3::{LONGEST_DATA, LONGEST_PACKET, LONGEST_WRITTEN};

/// Packet number 60 is F0 and the first byte of 16 points 0F. Three bytes of each of 15 points are
/// stuffed, and one of that which balances them.
#[test]
fn is_written() {
    let mut points = vec![(0x0FF, 60); 6];
    points.extend([(0x0F8, 124); 9]);
    points.push((3_654, 508));
    let config = ChannelConfig { execution: 0, channel: 0, pulse: pulse(&points) };
    let command = Command::LlChannelConfig(config);
    let written = agree::write(60, command, ROOM).expect("it has no net charge");
    assert_eq!(written.len(), LONGEST_WRITTEN);
    assert_eq!(agree::write(60, command, LONGEST_WRITTEN - 1), Err(16));
    assert_eq!(agree::read(&written, LONGEST_DATA).command, Some(command));
}

/// How many of a point's bytes are stuffed.
fn stuffed(duration: u16, code: u16) -> usize {
    let bits = u32::from(duration) << 20 | u32::from(code) << 10;
    bits.to_be_bytes().iter().filter(|byte| [0xF0, 0x0F, 0x81].contains(byte)).count()
}

/// No longer one could be written. Three bytes of a point are stuffed only if its charge is negative,
/// and two at most of any other; so of a pulse without net charge 15 points have three at most, and one
/// has two. No 15 charges of such points come to that of such a point.
#[test]
fn none_is_longer() {
    let (mut three, mut two) = (BTreeSet::new(), BTreeSet::new());
    for duration in 0..=4_095 {
        for code in 40..=560 {
            let charge = i32::from(duration) * (i32::from(code) - 300);
            match stuffed(duration, code) {
                3 if charge < 0 => drop(three.insert(charge)),
                2 if charge >= 0 => drop(two.insert(charge)),
                count => assert!(count < 3, "{duration} {code}"),
            }
        }
    }
    assert!(three.len() == 6 && two.len() > 50, "{} {}", three.len(), two.len());
    let mut sums = BTreeSet::from([0]);
    for _ in 0..15 {
        sums = sums.iter().flat_map(|sum| three.iter().map(move |charge| sum + charge)).collect();
    }
    assert!(sums.len() > 1_000 && sums.iter().all(|sum| !two.contains(&-sum)));

    // Start, header, packet number and command, first byte, points, stop; what is stuffed besides.
    let plain = |points: usize| 1 + 8 + 2 + 1 + 4 * points + 1;
    let besides = 2;
    assert_eq!(LONGEST_WRITTEN, plain(16) + besides + 15 * 3 + 1);
    // Fewer points cannot make up for it.
    assert!(plain(15) + besides + 14 * 3 + 2 < LONGEST_WRITTEN);
}

/// Start, header, packet number and command, stop.
#[test]
fn data_of_the_longest_packet() {
    assert_eq!(LONGEST_PACKET, 1 + 8 + 2 + LONGEST_DATA + 1);
}
