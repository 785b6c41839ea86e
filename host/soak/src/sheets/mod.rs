//! The trace as a text sheet: random readouts written, and random sheets read.
//!
//! `agree` compares one call with both independent sheets, `counts` has what was met.

pub mod agree;
mod counts;

pub(crate) use counts::Counts;

use crate::failure::{Failure, Named};
use crate::met::Met;
use crate::pick::{once_in, weighted};
use crate::random_sheets::{bad_record, damaged, readout, sheet};
use rand::rngs::SmallRng;
use rand::{Rng, SeedableRng};

const TRIAL: &str = "sheets";

/// Runs the readouts and sheets of this seed.
pub fn run(seed: u64, met: &mut Met) -> Result<(), Failure> {
    let _named = Named { trial: TRIAL, seed };
    let first = met.sheets.calls;
    let mut sheets = Sheets { rng: SmallRng::seed_from_u64(seed), met: &mut met.sheets };
    let ran = sheets.run();
    let call = sheets.met.calls - first + 1;
    ran.map_err(|what| Failure { trial: TRIAL, seed, call, what })
}

struct Sheets<'a> {
    rng: SmallRng,
    met: &'a mut Counts,
}

impl Sheets<'_> {
    fn run(&mut self) -> Result<(), String> {
        for _ in 0..self.rng.gen_range(10..50) {
            self.write()?;
            self.read()?;
        }
        Ok(())
    }

    fn write(&mut self) -> Result<(), String> {
        let readout = self.readout();
        let whole = 44 + 4 * readout.len();
        let room = self.room(whole);
        let written = agree::write(&readout, room)?;
        self.met.write(&readout, &written);
        // The same where there is just room, or a byte less.
        if let Ok(sheet) = written {
            let room = sheet.len() - usize::from(once_in(&mut self.rng, 2));
            let written = agree::write(&readout, room)?;
            self.met.write(&readout, &written);
        }
        Ok(())
    }

    fn read(&mut self) -> Result<(), String> {
        let sheet = self.sheet();
        let room = self.room(sheet.len());
        let read = agree::read(&sheet, room)?;
        self.met.read(&sheet, &read);
        if let Ok(readout) = read {
            let less = usize::from(once_in(&mut self.rng, 2));
            let read = agree::read(&sheet, readout.len().saturating_sub(less))?;
            self.met.read(&sheet, &read);
        }
        Ok(())
    }

    /// Records in range; or one that is not, or bytes changed, among them. Its allocation has exactly its
    /// size, and so has a sheet's.
    fn readout(&mut self) -> Box<[u8]> {
        let number = self.number();
        let rng = &mut self.rng;
        let mut readout = readout(rng, number);
        match weighted(rng, &[5, 2, 2, 1]) {
            0 => {}
            1 => {
                let clock = rng.gen();
                readout.extend(bad_record(rng, clock).bytes());
            }
            2 if !readout.is_empty() => {
                let place = rng.gen_range(0..readout.len());
                readout[place] = rng.gen();
            }
            _ => readout.truncate(rng.gen_range(0..=readout.len())),
        }
        readout.into()
    }

    fn sheet(&mut self) -> Box<[u8]> {
        let number = self.number();
        let rng = &mut self.rng;
        let mut sheet = sheet(rng, number);
        for _ in 0..weighted(rng, &[4, 4, 1]) {
            sheet = damaged(rng, sheet);
        }
        sheet.into()
    }

    /// How many records: few, and at times more than any ring has.
    fn number(&mut self) -> usize {
        let most = [3, 30, 1_000][weighted(&mut self.rng, &[60, 20, 1])];
        self.rng.gen_range(0..=most)
    }

    /// The length of an output: enough, or any.
    fn room(&mut self, enough: usize) -> usize {
        if once_in(&mut self.rng, 4) {
            self.rng.gen_range(0..=enough)
        } else {
            enough
        }
    }
}
