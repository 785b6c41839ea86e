//! Packets that are damaged or cut. A long one is at its ends and at some places between.

use crate::agree::{self, refused};
use crate::device::{packet, LONGEST_DATA};
use crate::random_bytes::byte;
use crate::seeded::seeded;
use rand::rngs::SmallRng;
use rand::Rng;

/// A packet of this many bytes is damaged at every place.
const SHORT: usize = 130;

/// The places of a packet to damage.
fn places(rng: &mut SmallRng, length: usize) -> Vec<usize> {
    if length <= SHORT {
        return (0..length).collect();
    }
    let between = (0..20).map(|_| rng.gen_range(12..length - 4));
    (0..12).chain(between).chain(length - 4..length).collect()
}

/// How many packets were damaged, short ones and long ones.
#[derive(Debug, Default)]
struct Damaged([u32; 2]);

impl Damaged {
    fn met(&mut self, length: usize) {
        self.0[usize::from(length > SHORT)] += 1;
    }

    /// At least so many of each; a device may have no long ones.
    fn enough(&self, least: u32) {
        let [short, long] = self.0;
        assert!(short > least && (LONGEST_DATA < SHORT || long > least / 20), "{self:?}");
    }
}

/// Every byte replaced by every other: none is overlooked.
#[test]
fn every_byte_replaced() {
    let mut damaged = Damaged::default();
    seeded(0..120, |rng| {
        let mut bytes = packet(rng);
        damaged.met(bytes.len());
        let whole = agree::read(&bytes, LONGEST_DATA);
        for place in places(rng, bytes.len()) {
            let was = bytes[place];
            for byte in 0..=255 {
                bytes[place] = byte;
                let reading = agree::read(&bytes, LONGEST_DATA);
                if byte == was {
                    assert_eq!(reading, whole);
                } else {
                    assert_ne!(reading.answer, 0, "{place} {byte:02X} {bytes:02X?}");
                }
            }
            bytes[place] = was;
        }
    });
    damaged.enough(90);
}

/// Cut anywhere: the first part is not finished, and the second is read only if it is all. A byte A5 of
/// the header leaves an F0 at its start, which opens a packet there.
#[test]
fn every_cut() {
    let (mut damaged, mut opened_late) = (Damaged::default(), 0);
    seeded(1_000..4_000, |rng| {
        let bytes = packet(rng);
        damaged.met(bytes.len());
        for place in places(rng, bytes.len()) {
            assert_eq!(agree::read(&bytes[..place], LONGEST_DATA), refused(1, 0));
            let rest = agree::read(&bytes[place..], LONGEST_DATA);
            let opened = place == 0 || bytes[place] == 0xF0;
            assert_eq!(rest.answer == 1, !opened, "{place} {bytes:02X?}");
            assert!(rest.answer != 0 || place == 0, "{place} {bytes:02X?}");
            opened_late += u32::from(opened && place > 0);
        }
    });
    damaged.enough(2_000);
    assert!(opened_late > 5, "{opened_late}");
}

/// A byte put in or taken out at every place: nothing is read unless the packet is still there whole.
#[test]
fn every_byte_more_or_less() {
    let (mut damaged, mut still_read) = (Damaged::default(), 0);
    seeded(5_000..8_000, |rng| {
        let bytes = packet(rng);
        damaged.met(bytes.len());
        for place in places(rng, bytes.len()) {
            let mut less = bytes.clone();
            less.remove(place);
            let mut more = bytes.clone();
            more.insert(place, byte(rng, 2));
            for changed in [less, more] {
                let there = changed.windows(bytes.len()).any(|whole| whole == bytes);
                let read = agree::read(&changed, LONGEST_DATA).answer == 0;
                assert!(there || !read, "{place} {changed:02X?}");
                still_read += u32::from(read);
            }
        }
    });
    damaged.enough(2_000);
    assert!(still_read > 500, "{still_read}");
}
