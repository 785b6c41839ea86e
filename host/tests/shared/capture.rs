//! All packets of a capture.

use crate::agree::ours;
use crate::device::{compose, independently, packet, packets, Command, NotRead, LONGEST_DATA};
use crate::random_bytes::{bytes, damaged};
use crate::seeded::seeded;
use rand::Rng;

/// What the independent codec finds, one behind the other: the places, and the answers with them.
#[test]
fn random_captures() {
    let mut found_all = [0; 5];
    seeded(0..50_000, |rng| {
        let mut capture = bytes(rng, 5);
        for _ in 0..rng.gen_range(0..8) {
            let packet = packet(rng);
            capture.extend(if rng.gen() { packet } else { damaged(rng, packet) });
        }
        let mut at = 0;
        for found in packets(&capture) {
            let reading = independently(&capture[at..], LONGEST_DATA);
            let used = if reading.answer == 1 { capture.len() - at } else { reading.used };
            assert_eq!(found.place, at..at + used);
            assert_eq!(found.data(), reading.data);
            match found.packet {
                Ok(packet) => {
                    assert_eq!(Some(packet.command), reading.command.as_ref().map(ours));
                    assert_eq!((packet.number, packet.used), (reading.packet, used));
                    assert_eq!((packet.size, reading.answer), (reading.data.len(), 0));
                }
                Err(why) => {
                    assert_eq!((why.answer().number(), why.used()), (reading.answer, reading.used));
                }
            }
            found_all[usize::from(reading.answer)] += 1;
            at = found.place.end;
        }
        assert_eq!(at, capture.len());
    });
    assert!([0, 1, 3, 4].iter().all(|&answer| found_all[answer] > 5_000), "{found_all:?}");
}

#[test]
fn no_bytes_have_no_packet() {
    assert_eq!(packets(&[]).count(), 0);
    let mut one = packets(&[0x00]);
    let found = one.next().expect("a byte is left over");
    assert_eq!((found.place.clone(), found.packet), (0..1, Err(NotRead::Unfinished)));
    assert_eq!(found.data(), [0u8; 0]);
    assert_eq!((one.next(), one.next()), (None, None));
}

/// Data of every length one behind the other, with a byte of garbage before each.
#[test]
fn the_data_of_each() {
    let datas: Vec<Vec<u8>> = (0..=60).map(|length| vec![0xF0 | length as u8; length]).collect();
    let numbered = || (0..).zip(&datas);
    let capture: Vec<u8> = numbered()
        .flat_map(|(number, data)| [&[0x0F][..], &compose(number, 60, data)].concat())
        .collect();
    let mut at = 0;
    for ((number, data), found) in numbered().zip(packets(&capture)) {
        let packet = found.packet.expect("each is whole");
        assert_eq!((packet.number, packet.command), (number, Command::Other { number: 60 }));
        assert_eq!(found.data(), data);
        assert_eq!(found.place.start, at);
        at = found.place.end;
    }
    assert_eq!((at, packets(&capture).count()), (capture.len(), datas.len()));
}
