//! One box through a random history of calls.

use crate::failure::{Failure, Named};
use crate::lent::{lay, lent};
use crate::met::{answered, Met};
use crate::pick::{any, once_in, weighted};
use crate::three::{self, Call, Three};
use crate::{act, damage, jump, profiles};
use rand::rngs::SmallRng;
use rand::{Rng, SeedableRng};
use yarrowbell::raw::{BoxRecord, Part, Said};
use yarrowbell::Answer;

const TRIAL: &str = "history";

/// Runs the history of this seed.
pub fn run(seed: u64, met: &mut Met) -> Result<(), Failure> {
    let _named = Named { trial: TRIAL, seed };
    let first = met.calls;
    let mut history = History { rng: SmallRng::seed_from_u64(seed), met };
    let ran = history.run();
    let call = history.met.calls - first + 1;
    ran.map_err(|what| Failure { trial: TRIAL, seed, call, what })
}

struct History<'a> {
    rng: SmallRng,
    met: &'a mut Met,
}

impl History<'_> {
    fn run(&mut self) -> Result<(), String> {
        let Some(mut three) = self.made()? else { return Ok(()) };
        let end = self.met.calls + self.rng.gen_range(200..8_000);
        while self.met.calls < end {
            match weighted(&mut self.rng, &[55, 22, 6, 10, 4, 3]) {
                0 => self.bytes(&mut three)?,
                1 => self.ticks(&mut three)?,
                2 => self.read_out(&mut three)?,
                3 => (0..8).try_for_each(|_| self.damaged(&three))?,
                4 => three = self.jumped(&three),
                _ => three = self.moved(&three),
            }
        }
        Ok(())
    }

    /// A box in its buffer, often with records in its ring already. There is none if the making was
    /// refused.
    fn made(&mut self) -> Result<Option<Three>, String> {
        let rng = &mut self.rng;
        let profile = if once_in(rng, 20) { profiles::not_good(rng) } else { profiles::good(rng) };
        let capacity = match rng.gen_range(0..40) {
            0 => any(rng, &[0, 15, 4_097, u32::MAX]),
            1..=4 => any(rng, &[4_095, 4_096]),
            5..=7 => rng.gen_range(16..=4_096),
            8..=10 => 16,
            _ => rng.gen_range(16..=80),
        };
        let made = three::make(profile, capacity)?;
        self.met.made(made.answer);
        if made.answer != 0 {
            return Ok(None);
        }
        let mut record = made.made;
        let (mut buffer, at) = lent(rng, capacity as usize);
        if rng.gen() {
            record.ring.start = rng.gen_range(0..capacity);
            let part = &mut buffer[at.offset..][..at.size];
            record.ring.used = lay(rng, part, record.ring.start as usize) as u32;
        }
        Ok(Some(Three::new(record, &buffer, at)))
    }

    fn bytes(&mut self, three: &mut Three) -> Result<(), String> {
        for (pause, byte) in act::bytes(&mut self.rng, three.record()) {
            for _ in 0..pause {
                self.call(three, Call::Tick)?;
            }
            self.call(three, Call::Byte(byte))?;
        }
        Ok(())
    }

    fn ticks(&mut self, three: &mut Three) -> Result<(), String> {
        for _ in 0..act::ticks(&mut self.rng, three.record()) {
            if answered(&self.call(three, Call::Tick)?) == Answer::ClockAtEnd {
                break;
            }
        }
        Ok(())
    }

    fn read_out(&mut self, three: &mut Three) -> Result<(), String> {
        let room = room(&mut self.rng, three.record());
        self.call(three, Call::Readout(room)).map(|_| ())
    }

    fn call(&mut self, three: &mut Three, call: Call) -> Result<Said, String> {
        let before = *three.record();
        let said = three.call(&mut self.rng, call)?;
        self.met.call(call, &before, &said, three.record());
        Ok(said)
    }

    /// A call on a copy with a field, the part, the ring or several of them damaged.
    fn damaged(&mut self, three: &Three) -> Result<(), String> {
        let rng = &mut self.rng;
        let (mut record, mut at) = (*three.record(), three.at);
        let mut buffer = three.buffer().to_vec();
        let mut damaged = None;
        let which = rng.gen_range(0..16);
        if which < 10 {
            let (field, change) = any(rng, &damage::FIELDS);
            let channel = rng.gen_range(0..8);
            change(rng, &mut record, channel);
            damaged = Some(field);
        }
        if which == 10 || which == 15 {
            at = damage::part(rng, at, buffer.len());
        }
        if which == 11 {
            buffer.truncate(any(rng, &[0, at.offset, at.offset + at.size - 1]));
        }
        if which >= 12 || once_in(rng, 8) {
            damage::byte(rng, &record, at, &mut buffer);
        }
        if once_in(rng, 8) {
            record.clock = u32::MAX;
        }
        let call = match rng.gen_range(0..3) {
            0 => Call::Byte(rng.gen()),
            1 => Call::Tick,
            _ => Call::Readout(room(rng, three.record())),
        };
        let before = Three::new(record, &buffer, at);
        let mut after = before.clone();
        let said = after.call(rng, call)?;
        if answered(&said).refuses() {
            after.same_buffer(&before)?;
        }
        self.met.call(call, before.record(), &said, after.record());
        if let Some(field) = damaged {
            self.met.damaged(field, said.answer);
        }
        Ok(())
    }

    /// The box at another time.
    fn jumped(&mut self, three: &Three) -> Three {
        let record = jump::jumped(&mut self.rng, three.record());
        Three::new(record, three.buffer(), three.at)
    }

    /// The ring's part at another place of another buffer.
    fn moved(&mut self, three: &Three) -> Three {
        let Part { offset, size } = three.at;
        let (mut buffer, at) = lent(&mut self.rng, size);
        buffer[at.offset..][..size].copy_from_slice(&three.buffer()[offset..][..size]);
        Three::new(*three.record(), &buffer, at)
    }
}

/// The length of an output: that of the trace, longer or shorter.
fn room(rng: &mut SmallRng, unit: &BoxRecord) -> usize {
    let used = unit.ring.used as usize;
    match rng.gen_range(0..6) {
        0 => 0,
        1 => used.saturating_sub(1),
        2 => rng.gen_range(0..=used),
        3 => used + rng.gen_range(1..=20),
        _ => used,
    }
}
