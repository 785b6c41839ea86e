//! The trial of one device.

use super::device::Device;
use super::{row, Counts};
use crate::failure::{Failure, Named};
use crate::met::Met;
use crate::pick::once_in;
use rand::rngs::SmallRng;
use rand::{Rng, SeedableRng};
use std::marker::PhantomData;
use yarrowbell::Answer;

/// Runs the packets of this seed, of one device.
pub fn run_device<D: Device>(seed: u64, met: &mut Met) -> Result<(), Failure> {
    let _named = Named { trial: D::TRIAL, seed };
    let met = D::counts(met);
    let first = met.calls;
    let rng = SmallRng::seed_from_u64(seed);
    let mut packets = Packets::<D> { rng, met, device: PhantomData };
    let ran = packets.run();
    let call = packets.met.calls - first + 1;
    ran.map_err(|what| Failure { trial: D::TRIAL, seed, call, what })
}

struct Packets<'a, D> {
    rng: SmallRng,
    met: &'a mut Counts,
    device: PhantomData<D>,
}

impl<D: Device> Packets<'_, D> {
    fn run(&mut self) -> Result<(), String> {
        let end = self.met.calls + self.rng.gen_range(50..1_000);
        while self.met.calls < end {
            if once_in(&mut self.rng, 3) {
                (0..4).try_for_each(|_| self.write())?;
            } else {
                self.read_row()?;
            }
        }
        Ok(())
    }

    /// A packet that does not fit is read again, into another output.
    fn read_row(&mut self) -> Result<(), String> {
        let row = row::row::<D>(&mut self.rng);
        let mut rest = &row[..];
        loop {
            let room = self.room();
            let seen = D::read(rest, room)?;
            self.met.read::<D>(rest, room, &seen);
            if seen.answer == Answer::Unfinished.number() {
                return Ok(());
            }
            rest = &rest[seen.used..];
        }
    }

    fn write(&mut self) -> Result<(), String> {
        let room = self.rng.gen_range(0..=D::LONGEST_WRITTEN + 10);
        let sent = D::write(&mut self.rng, room)?;
        self.met.write(room, &sent);
        Ok(())
    }

    /// The length of an output: enough for any data, for that of a carried command, or any.
    fn room(&mut self) -> usize {
        let rng = &mut self.rng;
        match rng.gen_range(0..6) {
            0 => rng.gen_range(0..=D::LONGEST_CARRIED),
            1 => rng.gen_range(0..=D::ROOM),
            _ => D::LONGEST_DATA,
        }
    }
}
