//! What the packets of a device came across.

use super::device::{Device, Seen, Sent};
use crate::met::{told, ANSWERS};
use std::collections::BTreeMap;

/// The bytes that start, stop and stuff.
const MARKS: [u8; 3] = [START, 0x0F, STUFFING];
const START: u8 = 0xF0;
const STUFFING: u8 = 0x81;
const KEY: u8 = 0x55;

/// The answers that each call on packets can be given.
const TO_READ: &[u8] = &[0, 1, 3, 4, 16];
const TO_WRITE: &[u8] = &[0, 4, 16];

/// All that is counted.
#[derive(Clone, Debug, Default)]
pub struct Counts {
    pub calls: u64,
    reads: [u64; ANSWERS],
    writes: [u64; ANSWERS],
    commands_read: BTreeMap<u16, u64>,
    commands_written: BTreeMap<u16, u64>,
    others: u64,
    empty_others: u64,
    longest_others: u64,
    others_not_written: u64,
    behind_garbage: u64,
    behind_dropped: u64,
    /// In the order of `MARKS`: in packet number, command or data, and as a second byte of the checksum.
    stuffed: [u64; 3],
    checksums: [u64; 3],
    filled: u64,
    filled_with_packets: u64,
    own: BTreeMap<String, u64>,
}

impl Counts {
    /// A call of every reader on these bytes.
    pub fn read<D: Device>(&mut self, bytes: &[u8], room: usize, seen: &Seen) {
        self.calls += 1;
        self.reads[usize::from(seen.answer)] += 1;
        self.met(&seen.own);
        let Some(packet) = &seen.packet else {
            return;
        };
        let (data, whole) = (&packet.data, &packet.whole);
        if carried::<D>(packet.command) {
            *self.commands_read.entry(packet.command).or_default() += 1;
        } else {
            self.others += 1;
            self.empty_others += u64::from(data.is_empty());
            self.longest_others += u64::from(data.len() == D::LONGEST_DATA);
        }
        self.filled += u64::from(room > 0 && room == data.len());
        self.garbage(&bytes[..seen.used - whole.len()]);
        for (place, &mark) in MARKS.iter().enumerate() {
            let mut pairs = whole[D::COVERED..].windows(2);
            self.stuffed[place] += u64::from(pairs.any(|pair| pair == [STUFFING, mark ^ KEY]));
            let mut places = D::CHECKSUM.iter();
            self.checksums[place] += u64::from(places.any(|&place| whole[place] == mark));
        }
    }

    /// What stands before a packet.
    fn garbage(&mut self, garbage: &[u8]) {
        self.behind_garbage += u64::from(!garbage.is_empty());
        self.behind_dropped += u64::from((0..garbage.len()).any(|at| starts(garbage, at)));
    }

    /// A call of the command's writer.
    pub fn write(&mut self, room: usize, sent: &Sent) {
        self.calls += 1;
        let answer = sent.written.as_ref().err().copied().unwrap_or(0);
        self.writes[usize::from(answer)] += 1;
        self.met(&sent.own);
        match (sent.command, &sent.written) {
            (Some(command), Ok(packet)) => {
                *self.commands_written.entry(command).or_default() += 1;
                self.filled_with_packets += u64::from(packet.len() == room);
            }
            (None, Err(_)) => self.others_not_written += 1,
            _ => {}
        }
    }

    fn met(&mut self, own: &[String]) {
        for what in own {
            *self.own.entry(what.clone()).or_default() += 1;
        }
    }

    /// Everything that a long run must meet, with how often it was met.
    pub fn lines<D: Device>(&self) -> Vec<(String, u64)> {
        let mut lines = vec![("calls on packets".to_owned(), self.calls)];
        lines.extend(told("packet read answered", TO_READ, &self.reads));
        lines.extend(told("packet write answered", TO_WRITE, &self.writes));
        for (done, counts) in [("read", &self.commands_read), ("written", &self.commands_written)] {
            let line = |(number, name): &(u16, &str)| {
                (format!("packets of {name} {done}"), counts.get(number).copied().unwrap_or(0))
            };
            lines.extend(D::COMMANDS.iter().map(line));
        }
        for (mark, count) in MARKS.iter().zip(self.stuffed) {
            lines.push((format!("packets read with {mark:02X} stuffed"), count));
        }
        for (mark, count) in MARKS.iter().zip(self.checksums) {
            lines.push((format!("packets read with a checksum stuffed to {mark:02X}"), count));
        }
        let longest = format!("packets of other commands with {} bytes of data", D::LONGEST_DATA);
        lines.push((longest, self.longest_others));
        let others = [
            ("packets of other commands read", self.others),
            ("packets of other commands without data", self.empty_others),
            ("other commands not written", self.others_not_written),
            ("packets read behind garbage", self.behind_garbage),
            ("packets read behind one that was dropped", self.behind_dropped),
            ("outputs filled with data to the last byte", self.filled),
            ("outputs filled with a packet to the last byte", self.filled_with_packets),
        ];
        lines.extend(others.map(|(what, count)| (what.to_owned(), count)));
        lines.extend(D::own().into_iter().map(|what| {
            let count = self.own.get(&what).copied().unwrap_or(0);
            (what, count)
        }));
        lines.into_iter().map(|(what, count)| (format!("{}: {what}", D::NAME), count)).collect()
    }
}

/// Whether a packet starts at this place.
pub fn starts(bytes: &[u8], at: usize) -> bool {
    bytes[at] == START && !bytes[..at].ends_with(&[STUFFING])
}

fn carried<D: Device>(command: u16) -> bool {
    D::COMMANDS.iter().any(|(number, _)| *number == command)
}
