//! Reading what was written, and writing what was read, through what a host program uses alone.

use crate::agree::ours;
use crate::random_bytes::{byte, bytes};
use crate::random_packets::{command, packet};
use crate::seeded::seeded;
use yarrowbell::rehastim2::{read, write, Command, NotWritten, LONGEST_DATA, LONGEST_WRITTEN};

#[test]
fn written_then_read() {
    let mut written = 0;
    seeded(0..300_000, |rng| {
        let (number, command) = (byte(rng, 5), ours(&command(rng)));
        let mut out = [0; LONGEST_WRITTEN];
        let Ok(used) = write(number, &command, &mut out) else {
            return;
        };
        let mut data = [0; LONGEST_DATA];
        let packet = read(&out[..used], &mut data).expect("it was written");
        assert_eq!((packet.number, packet.command, packet.used), (number, command, used));
        written += 1;
    });
    assert!(written > 200_000, "{written}");
}

/// The same bytes, without the garbage and whatever stands behind them.
#[test]
fn read_then_written() {
    let (mut written, mut others) = (0, 0);
    seeded(1_000_000..1_300_000, |rng| {
        let mut garbage = bytes(rng, 4);
        garbage.retain(|byte| ![0xF0, 0x81].contains(byte));
        let whole = packet(rng);
        let stream = [&garbage[..], &whole, &bytes(rng, 4)].concat();
        let mut data = [0; LONGEST_DATA];
        let Ok(packet) = read(&stream, &mut data) else {
            return;
        };
        assert_eq!(packet.used, garbage.len() + whole.len());
        let mut out = [0; LONGEST_WRITTEN];
        let used = write(packet.number, &packet.command, &mut out);
        if matches!(packet.command, Command::Other { .. }) {
            assert_eq!(used, Err(NotWritten::NotGood));
            others += 1;
        } else {
            assert_eq!(used, Ok(whole.len()));
            assert_eq!(out[..whole.len()], whole);
            written += 1;
        }
    });
    assert!(written > 100_000 && others > 30_000, "{written} {others}");
}
