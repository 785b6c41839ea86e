//! The records of a readout, or of the memory that a ring lies in.

use crate::bytes::Bytes;
use crate::failure::BadInput;
use yarrowbell::calls::ring_read_out;
use yarrowbell::raw::{Part, Ring};
use yarrowbell::{records, Answer, Guard, NotRecords, Record};

/// The records of a readout.
pub fn of(given: &Bytes) -> Result<Vec<Record>, BadInput> {
    records(&given.all).map_err(|why| given.fault(why.at(), why))
}

/// Where the records lie in a ring's part: from `start` on, round at its end.
pub struct Tail {
    pub start: usize,
    pub used: usize,
}

impl Tail {
    /// The records of a ring whose part has these bytes.
    pub fn of(&self, given: &Bytes) -> Result<Vec<Record>, BadInput> {
        let capacity = given.all.len();
        if !Guard::CAPACITIES.contains(&capacity) {
            let (least, most) = (Guard::CAPACITIES.start(), Guard::CAPACITIES.end());
            let what =
                format!("{capacity} bytes cannot be a ring's part: it has {least} to {most}");
            return Err(given.fault(None, what));
        }
        within("--start", self.start, capacity - 1, capacity)?;
        within("--used", self.used, capacity, capacity)?;
        self.read_out(&given.all).map_err(|why| match why.at() {
            None => given.fault(None, why),
            Some(at) => {
                let place = (self.start + at) % capacity;
                let what = format!("{why}; byte {at} of the readout is byte {place} of the memory");
                given.fault(Some(place), what)
            }
        })
    }

    /// The library reads the ring out, or refuses to; then this finds the place.
    fn read_out(&self, part: &[u8]) -> Result<Vec<Record>, NotRecords> {
        let at = Part { offset: 0, size: part.len() };
        let [capacity, start, used] = [part.len(), self.start, self.used].map(|n| n as u32);
        let mut readout = vec![0; self.used];
        let read = ring_read_out(part, at, Ring { capacity, start, used }, &mut readout);
        if Answer::from_number(read.answer) == Some(Answer::Done) {
            return records(&readout);
        }
        let tail: Vec<u8> = part.iter().cycle().skip(self.start).take(self.used).copied().collect();
        Err(records(&tail).expect_err("the library says that they are no records"))
    }
}

fn within(name: &str, is: usize, most: usize, capacity: usize) -> Result<(), BadInput> {
    if is > most {
        let what = format!("{is} is out of its range, 0 to {most} for {capacity} bytes");
        return Err(BadInput::argument(name, what));
    }
    Ok(())
}
