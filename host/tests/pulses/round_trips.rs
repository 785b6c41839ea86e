//! Reading what was written, and writing what was read, through what a host program uses alone.

use crate::device::number;
use crate::random_bytes::bytes;
use crate::random_pulses::{command, packet};
use crate::seeded::seeded;
use soak::packets::rehamove3::alike;
use yarrowbell::rehamove3::{
    read, write, Command, NotWritten, LONGEST_DATA, LONGEST_PACKET, LONGEST_WRITTEN,
};

/// A million commands, half of them pulses; every one fits if it is written at all.
#[test]
fn written_then_read() {
    let (mut written, mut pulses, mut charged, mut longest) = (0, 0, 0, 0);
    seeded(0..1_000_000, |rng| {
        let (number, Some(command)) = (number(rng), alike::command(&command(rng))) else {
            return;
        };
        let mut out = [0; LONGEST_WRITTEN];
        let used = match write(number, &command, &mut out) {
            Ok(used) => used,
            Err(NotWritten::NotBalanced { charge }) => {
                assert_ne!(charge, 0);
                charged += 1;
                return;
            }
            Err(why) => return assert_eq!(why, NotWritten::NotGood),
        };
        let mut data = [0; LONGEST_DATA];
        let packet = read(&out[..used], &mut data).expect("it was written");
        assert_eq!((packet.number, packet.command, packet.used), (number, command, used));
        assert_eq!(packet.charge, 0);
        written += 1;
        pulses += u32::from(matches!(command, Command::LlChannelConfig(_)));
        longest = longest.max(used);
    });
    let counts = (written, pulses, charged, longest);
    assert!(written > 500_000 && pulses > 100_000 && charged > 100_000, "{counts:?}");
    assert!(longest > 90, "{counts:?}");
}

/// The same bytes, without the garbage and whatever stands behind them; "writing back holds for zero
/// only".
#[test]
fn read_then_written() {
    let (mut written, mut others, mut charged) = (0, 0, 0);
    seeded(1_000_000..1_600_000, |rng| {
        let mut garbage = bytes(rng, 4);
        garbage.retain(|byte| ![0xF0, 0x81].contains(byte));
        let whole = packet(rng);
        let stream = [&garbage[..], &whole, &bytes(rng, 4)].concat();
        let mut data = [0; LONGEST_DATA];
        let Ok(packet) = read(&stream, &mut data) else {
            return;
        };
        assert_eq!(packet.used, garbage.len() + whole.len());
        let mut out = [0; LONGEST_PACKET];
        let used = write(packet.number, &packet.command, &mut out);
        if matches!(packet.command, Command::Other { .. }) {
            assert_eq!(used, Err(NotWritten::NotGood));
            others += 1;
        } else if packet.charge != 0 {
            assert_eq!(used, Err(NotWritten::NotBalanced { charge: packet.charge }));
            charged += 1;
        } else {
            assert_eq!(used, Ok(whole.len()));
            assert_eq!(out[..whole.len()], whole);
            written += 1;
        }
    });
    let counts = [written, others, charged];
    assert!(counts.iter().all(|&count| count > 50_000), "{counts:?}");
}
