//! The three boxes that are called alike.

use crate::failure::{same, same_bytes};
use crate::met::answered;
use crate::{alike, numbers};
use independent::plain::machine as plain;
use rand::rngs::SmallRng;
use rand::RngCore;
use yarrowbell::calls;
use yarrowbell::raw::{BoxRecord, Made, Part, Profile, Readout, Said};

/// One call, with what it is given besides box and ring.
#[derive(Clone, Copy, Debug)]
pub enum Call {
    Byte(u8),
    Tick,
    /// Into an output of so many bytes.
    Readout(usize),
}

/// The library's box in place, its box by value, and the independent machine's, each with a buffer
/// of its own. Records in place, buffers and outputs have allocations of exactly their size.
#[derive(Clone)]
pub struct Three {
    in_place: Box<BoxRecord>,
    by_value: BoxRecord,
    plain: plain::BoxRecord,
    buffers: [Box<[u8]>; 3],
    pub at: Part,
}

/// Makes a box by the library and by the independent machine. Hands back the answer and the record.
pub fn make(profile: Profile, capacity: u32) -> Result<Made, String> {
    let expected = match plain::BoxRecord::new(numbers::profile(profile), capacity as usize) {
        Ok(record) => Made { answer: 0, made: alike::record(&record) },
        Err(answer) => Made { answer: answer.into(), made: BoxRecord::default() },
    };
    let made = calls::make(profile, capacity);
    same(&made, &expected, || format!("a box of capacity {capacity} and {profile:?}"))?;
    Ok(made)
}

impl Three {
    /// The same record and buffer for each.
    pub fn new(record: BoxRecord, buffer: &[u8], at: Part) -> Three {
        Three {
            in_place: Box::new(record),
            by_value: record,
            plain: numbers::given(&record),
            buffers: [buffer, buffer, buffer].map(Box::from),
            at,
        }
    }

    pub fn record(&self) -> &BoxRecord {
        &self.in_place
    }

    pub fn buffer(&self) -> &[u8] {
        &self.buffers[0]
    }

    /// Makes the call on each, compares all of them, and hands back what they say. The box in place
    /// is compared byte by byte too, after a refusal with what it was.
    pub fn call(&mut self, rng: &mut SmallRng, call: Call) -> Result<Said, String> {
        let (before, at) = (*self.in_place, self.at);
        let told = |what: &str| format!("{what} of {call:?} at {at:?} on {before:?}");
        let [in_place, by_value, expected] = match call {
            Call::Byte(n) => self.byte(n),
            Call::Tick => self.tick(),
            Call::Readout(room) => self.read_out(rng, room, told)?,
        };
        same(&in_place, &expected, || told("what the box in place says"))?;
        same(&by_value, &expected, || told("what the box by value says"))?;
        let record = alike::record(&self.plain);
        same(&*self.in_place, &record, || told("the box in place"))?;
        same(&self.by_value, &record, || told("the box by value"))?;
        let lent = self.in_place.bytes();
        for expected in [&self.by_value, &record] {
            same_bytes(lent, expected.bytes(), || told("the lent record's bytes"))?;
        }
        if answered(&expected).refuses() {
            same_bytes(lent, before.bytes(), || told("the lent record's bytes after a refusal"))?;
        }
        let [in_place, by_value, plain] = &self.buffers;
        same_bytes(in_place, plain, || told("the buffer in place"))?;
        same_bytes(by_value, plain, || told("the buffer by value"))?;
        Ok(expected)
    }

    fn byte(&mut self, n: u8) -> [Said; 3] {
        let [in_place, by_value, plain] = &mut self.buffers;
        let said = calls::byte_in_place(&mut self.in_place, in_place, self.at, n);
        let called = calls::byte(self.by_value, by_value, self.at, n);
        self.by_value = called.next;
        let expected = self.plain.byte(plain, numbers::part(self.at), n);
        [said, called.said, alike::said(expected)]
    }

    fn tick(&mut self) -> [Said; 3] {
        let [in_place, by_value, plain] = &mut self.buffers;
        let said = calls::tick_in_place(&mut self.in_place, in_place, self.at);
        let called = calls::tick(self.by_value, by_value, self.at);
        self.by_value = called.next;
        let expected = self.plain.tick(plain, numbers::part(self.at));
        [said, called.said, alike::said(expected)]
    }

    /// A readout has one export. It is told as an answer alone.
    fn read_out(
        &self,
        rng: &mut SmallRng,
        room: usize,
        told: impl Fn(&str) -> String,
    ) -> Result<[Said; 3], String> {
        let mut out = vec![0; room].into_boxed_slice();
        rng.fill_bytes(&mut out);
        let mut expected_out = out.clone();
        let readout = calls::readout(*self.in_place, self.buffer(), self.at, &mut out);
        let plain = &self.buffers[2];
        let expected = match self.plain.read_out(plain, numbers::part(self.at), &mut expected_out) {
            Ok(used) => Readout { answer: 0, used: used as u32 },
            Err(answer) => Readout { answer: answer.into(), used: 0 },
        };
        same(&readout, &expected, || told("the report"))?;
        same_bytes(&out, &expected_out, || told("the output"))?;
        Ok([Said { answer: expected.answer as u16, ..Said::default() }; 3])
    }

    /// Whether the buffer is that of another.
    pub fn same_buffer(&self, before: &Three) -> Result<(), String> {
        same_bytes(self.buffer(), before.buffer(), || "the buffer after a refusal".to_owned())
    }
}
