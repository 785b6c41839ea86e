//! The guard unit as a host program uses it.

use crate::raw::{BoxRecord, Part, Profile, Said};
use crate::{calls, Answer, Refusal, State, Told};
use std::ops::RangeInclusive;

/// A box with its ring. It owns the ring's memory, so that the two cannot come apart.
///
/// ```
/// use yarrowbell::{Cause, Guard, Profile};
///
/// // A Single of 120 mA on channel 3, where 100 mA is the most.
/// let mut profile = Profile::LOOSEST;
/// profile.currents[2] = 100;
/// let mut guard = Guard::new(profile, 64)?;
/// for byte in [0xE2, 0x21, 0x48] {
///     assert_eq!(guard.byte(byte).reply, None);
/// }
/// let told = guard.byte(0x78);
/// assert_eq!((told.answer.number(), told.reply), (9, Some(0xC0)));
/// assert_eq!(told.trip, Some(Cause::Limit));
/// assert_eq!(told.released().count(), 0);
/// # Ok::<(), yarrowbell::Refusal>(())
/// ```
#[derive(Clone, Debug)]
pub struct Guard {
    record: BoxRecord,
    ring: Box<[u8]>,
}

impl Guard {
    /// The capacities, in bytes, that a ring may have.
    pub const CAPACITIES: RangeInclusive<usize> = 16..=4096;

    /// A fresh box: idle at clock 0, with an empty ring of `capacity` bytes. A profile that is not good
    /// is refused, and then a capacity that is not one of [`Guard::CAPACITIES`].
    pub fn new(profile: Profile, capacity: usize) -> Result<Guard, Refusal> {
        // A capacity that is too large for its number is too large for a box.
        let made = calls::make(profile, capacity.try_into().unwrap_or(u32::MAX));
        match (Answer::known(made.answer), profile.out_of_range()) {
            (Answer::Done, _) => {
                Ok(Guard { record: made.made, ring: vec![0; capacity].into_boxed_slice() })
            }
            (Answer::ProfileNotGood, Some(number)) => Err(Refusal::Profile(number)),
            _ => Err(Refusal::Capacity(capacity)),
        }
    }

    /// Hands the box one byte of the line. None is refused.
    pub fn byte(&mut self, byte: u8) -> Told {
        let (at, from) = (self.part(), self.state());
        let said = calls::byte_in_place(&mut self.record, &mut self.ring, at, byte);
        self.told(said, from).with_reply(said.reply)
    }

    /// Moves the clock on by a tenth of a millisecond. It is refused at the clock's end alone.
    pub fn tick(&mut self) -> Result<Told, Refusal> {
        let (at, from) = (self.part(), self.state());
        let said = calls::tick_in_place(&mut self.record, &mut self.ring, at);
        match Answer::known(said.answer) {
            Answer::ClockAtEnd => Err(Refusal::Tick),
            _ => Ok(self.told(said, from)),
        }
    }

    /// Copies the ring's records to the start of `out`, oldest first, and hands back how many bytes
    /// they have. An output that is too short for them is refused.
    pub fn readout(&self, out: &mut [u8]) -> Result<usize, Refusal> {
        let readout = calls::readout(self.record, &self.ring, self.part(), out);
        match Answer::known(readout.answer) {
            Answer::Done => Ok(readout.used as usize),
            Answer::OutputTooShort => {
                Err(Refusal::Output { room: out.len(), trace: self.record.ring.used as usize })
            }
            answer => not_its_own(answer),
        }
    }

    /// The ring's records, oldest first, as bytes; [`records`](crate::records()) takes them apart.
    pub fn trace(&self) -> Vec<u8> {
        let mut out = vec![0; self.record.ring.used as usize];
        self.readout(&mut out).expect("it has as much room as the ring uses");
        out
    }

    /// The clock, in tenths of a millisecond.
    pub fn clock(&self) -> u32 {
        self.record.clock
    }

    /// The state that the last call left.
    pub fn state(&self) -> State {
        State::known(self.record.core.state)
    }

    /// All that the box keeps, but for its ring's bytes.
    pub fn record(&self) -> &BoxRecord {
        &self.record
    }

    fn part(&self) -> Part {
        Part { offset: 0, size: self.ring.len() }
    }

    /// What is said to a call that came in a state.
    fn told(&self, said: Said, from: State) -> Told {
        match Answer::known(said.answer) {
            answer if answer.refuses() => not_its_own(answer),
            answer => Told::of_call(answer, said, [from, self.state()]),
        }
    }
}

/// Answers 12, 13 and 14 are to a record or a ring that is not good, and calls leave good ones.
fn not_its_own(answer: Answer) -> ! {
    unreachable!("a guard's own box and ring are refused: {answer}")
}
