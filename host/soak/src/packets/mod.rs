//! Packets: rows of bytes read packet by packet, and commands written.
//!
//! A module of each device has `agree`, which compares one call with the independent codec, and `alike`,
//! the codec's packets in the library's records and calls. What the devices share stands beside them:
//! `trial` runs them, `row` has the bytes, and `counts` what was met.

pub mod rehamove3;
pub mod rehastim2;

mod counts;
mod device;
mod row;
mod trial;

pub(crate) use counts::Counts;
pub use device::Device;
pub use row::covered;
pub use trial::run_device;

use crate::failure::Failure;
use crate::met::Met;
use rehamove3::RehaMove3;
use rehastim2::RehaStim2;
use yarrowbell::Answer;

/// Runs the packets of this seed, of each device.
pub fn run(seed: u64, met: &mut Met) -> Result<(), Failure> {
    run_device::<RehaStim2>(seed, met)?;
    run_device::<RehaMove3>(seed, met)
}

/// What all say of a written packet: its bytes, or the answer of a refusal.
pub type Written = Result<Vec<u8>, u8>;

fn known(answer: u8) -> Answer {
    Answer::from_number(answer).expect("the independent codec answers by document 01")
}
