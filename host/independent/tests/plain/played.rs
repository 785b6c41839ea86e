//! A box with its ring, and what must hold after every call.

use crate::naive;
use independent::plain::machine::{BoxRecord, Profile, Pulse, Said};
use independent::{tail, Part, Record};
use rand::rngs::SmallRng;
use rand::Rng;

pub struct Played {
    pub record: BoxRecord,
    pub buffer: Vec<u8>,
    pub at: Part,
    /// All records released so far.
    pub all: Vec<Record>,
    /// How many of them the last readout was compared with.
    compared: usize,
}

impl Played {
    pub fn new(profile: Profile, capacity: usize) -> Played {
        Played {
            record: BoxRecord::new(profile, capacity).expect("a good profile and capacity"),
            buffer: (7..=250).cycle().take(capacity + 11).collect(),
            at: Part { offset: 5, size: capacity },
            all: Vec::new(),
            compared: 0,
        }
    }

    pub fn random(rng: &mut SmallRng, profile: Profile) -> Played {
        let capacity = if rng.gen_range(0..10) == 0 { 4_096 } else { rng.gen_range(16..=80) };
        Played::new(profile, capacity)
    }

    pub fn byte(&mut self, byte: u8) -> Said {
        let before = self.record;
        let said = self.record.byte(&mut self.buffer, self.at, byte);
        let decided = said.answer == 0 || (3..=10).contains(&said.answer);
        let clock = before.clock;
        if decided {
            let ident = said.reply >> 6;
            assert_eq!(said.reply, independent::reply(ident, said.answer));
            self.all.push(Record::Answer { clock, ident, answer: said.answer });
        } else {
            assert!(said.answer == 1 || said.answer == 2);
            assert_eq!(said, Said { answer: said.answer, ..Said::default() });
        }
        if said.answer == 2 {
            assert_eq!(self.record, before);
        }
        self.released(&said);
        if said.answer == 9 {
            self.all.push(Record::Trip { clock, cause: 1 });
            assert_eq!(self.record.state, 2);
        }
        assert_eq!(self.record.clock, clock);
        self.stands();
        said
    }

    pub fn tick(&mut self) -> Said {
        let before = self.record;
        let said = self.record.tick(&mut self.buffer, self.at);
        assert_eq!((said.answer, said.reply, self.record.clock), (0, 0, before.clock + 1));
        assert_eq!(self.record.hold_a, before.hold_a.max(1) - 1);
        assert_eq!(self.record.hold_b, before.hold_b.max(1) - 1);
        let pulses = self.released(&said);
        assert_eq!(pulses, naive::due(&self.record.run, self.record.clock));
        if self.record.state != before.state {
            assert_eq!((before.run.watch + 1, self.record.state), (before.profile.watchdog, 2));
            self.all.push(Record::Trip { clock: self.record.clock, cause: 2 });
        }
        self.stands();
        said
    }

    /// The answers to the bytes of a frame.
    pub fn frame(&mut self, bytes: &[u8]) -> Vec<u8> {
        bytes.iter().map(|&byte| self.byte(byte).answer).collect()
    }

    pub fn read_out(&self) -> Vec<u8> {
        let mut out = vec![0; self.record.ring.used];
        let used = self.record.read_out(&self.buffer, self.at, &mut out);
        assert_eq!(used, Ok(out.len()));
        out
    }

    fn released(&mut self, said: &Said) -> Vec<Pulse> {
        let pulses: Vec<Pulse> =
            [said.a, said.b].into_iter().filter(|pulse| *pulse != Pulse::default()).collect();
        assert!(said.a.channel <= 4 && (said.b.channel == 0 || said.b.channel > 4));
        for &Pulse { clock, channel, width, current } in &pulses {
            assert_eq!(clock, self.record.clock);
            assert!(width > 0 && current > 0);
            self.all.push(Record::Pulse { clock, channel, width, current });
        }
        pulses
    }

    /// The record is good, and the readout is the tail of all records. No tail has more records than
    /// its bytes have sixths.
    fn stands(&mut self) {
        assert!(self.record.good() && naive::good(&self.record));
        if self.compared == self.all.len() {
            return;
        }
        self.compared = self.all.len();
        let capacity = self.at.size;
        let last = &self.all[self.all.len().saturating_sub(capacity / 6 + 1)..];
        let bytes: Vec<u8> = tail(last, capacity).iter().flat_map(Record::bytes).collect();
        assert_eq!(self.read_out(), bytes);
    }
}
