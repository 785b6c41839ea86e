//! Packets, read and written on every side.

use super::same::same_three;
use crate::packets::{Device, RehaMove3, RehaStim2};
use crate::random_bytes::damaged;
use crate::seeded::seeded;
use rand::Rng;
use yarrowbell::raw::Wrote;

const CASES: u64 = 10_000;

pub fn check() {
    of_device::<RehaStim2>();
    of_device::<RehaMove3>();
    println!(
        "library, plain and independent codec agree on {CASES} random packets of the RehaStim2 \
         and {CASES} of the RehaMove3, read whole, damaged and around any bytes, and written"
    );
}

fn of_device<D: Device>() {
    seeded(0..CASES, |rng| {
        let whole = D::packet(rng);
        read::<D>(&whole, rng.gen_range(0..=D::LONGEST_DATA));
        packet_read::<D>(&whole);
        packet_read::<D>(&damaged(rng, whole));
        packet_read::<D>(&D::covered(rng));

        let (number, command) = D::command(rng);
        let room = rng.gen_range(0..=D::LONGEST_WRITTEN);
        for room in [room, D::LONGEST_WRITTEN] {
            write::<D>(number, command, room, |out| D::write(number, command, out));
        }
    });
}

/// What the reader answers to these bytes. Stops at the first difference.
pub fn packet_read<D: Device>(bytes: &[u8]) -> u8 {
    read::<D>(bytes, D::LONGEST_DATA)
}

/// The packet that the library writes by this call. Stops at the first difference.
pub fn packet_written<D: Device>(
    number: u8,
    command: D::Command,
    library: impl Fn(&mut [u8]) -> Wrote,
) -> Vec<u8> {
    write::<D>(number, command, D::LONGEST_WRITTEN, library)
}

fn read<D: Device>(bytes: &[u8], room: usize) -> u8 {
    let mut outs = outputs(room);
    let [first, second, third] = &mut outs;
    let library = D::read(bytes, first);
    let plain = D::of_plain(D::plain_read(bytes, second));
    let (independent, data) = D::of_independent(D::independent_read(bytes, room));
    third[..data.len()].copy_from_slice(&data);

    let told = (bytes, room);
    let reads = [library, plain, independent];
    same_three("a reading of a packet", &told, &reads);
    same_three("data of a packet", &told, &outs);
    D::answer(&reads[0])
}

fn write<D: Device>(
    number: u8,
    command: D::Command,
    room: usize,
    library: impl Fn(&mut [u8]) -> Wrote,
) -> Vec<u8> {
    let mut outs = outputs(room);
    let [first, second, third] = &mut outs;
    let Wrote { answer, used } = library(first);
    let library = (answer, used.into());

    let wrote = D::plain_write(number, command, second);
    let plain = (wrote.answer, wrote.used);

    let independent = match D::independent_write(number, command) {
        None => (4, 0),
        Some(bytes) if bytes.len() > room => (16, 0),
        Some(bytes) => {
            third[..bytes.len()].copy_from_slice(&bytes);
            (0, bytes.len())
        }
    };

    let told = (number, command, room);
    same_three("a writing of a packet", &told, &[library, plain, independent]);
    same_three("bytes of a written packet", &told, &outs);
    outs[0][..library.1].to_vec()
}

fn outputs(room: usize) -> [Vec<u8>; 3] {
    [(); 3].map(|()| vec![0xA5; room])
}
