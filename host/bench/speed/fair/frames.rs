//! Random frames, read and written.

use super::random;
use super::same::{same, same_all};
use crate::seeded::seeded;
use independent::plain::codec;
use independent::{Command, Setting};
use rand::rngs::SmallRng;
use rand::Rng;
use soak::alike;
use yarrowbell::{calls, raw};

pub fn check() {
    const CASES: u64 = 10_000;
    seeded(0..CASES, |rng| {
        let count = rng.gen_range(0..=9);
        let command = random::command(rng, count.clamp(1, 8));
        let frame = random::frame(rng, &command, count.clamp(1, 8));
        read(&frame, count);
        write(rng, &command, count);
    });
    println!("library and plain agree on {CASES} random frames, read and written");
}

/// Each reader takes a frame of any kind.
fn read(frame: &[u8], count: usize) {
    let told = (frame, count);
    let codec::ReadInit { answer, ident, used, init } = codec::read_init(frame, count);
    let used = used as u16;
    let plain = raw::ReadInit { answer, ident, used, init: alike::init(init) };
    same("a reading of an Init", &told, &calls::read_init(frame, count), &plain);

    let codec::ReadUpdate { answer, ident, used, settings } = codec::read_update(frame, count);
    let used = used as u16;
    let plain = raw::ReadUpdate { answer, ident, used, settings: alike::settings(settings) };
    same("a reading of an Update", &told, &calls::read_update(frame, count), &plain);

    let codec::ReadStop { answer, ident, used } = codec::read_stop(frame, count);
    let plain = raw::ReadStop { answer, ident, used: used as u16 };
    same("a reading of a Stop", &told, &calls::read_stop(frame, count), &plain);

    let codec::ReadSingle { answer, ident, used, single } = codec::read_single(frame, count);
    let used = used as u16;
    let plain = raw::ReadSingle { answer, ident, used, single: alike::single(single) };
    same("a reading of a Single", &told, &calls::read_single(frame, count), &plain);
}

fn write(rng: &mut SmallRng, command: &Command, count: usize) {
    let room = if rng.gen_range(0..4) == 0 { rng.gen_range(0..25) } else { 25 };
    let mut outs = [vec![0xA5; room], vec![0xA5; room]];
    let [first, second] = &mut outs;
    let (library, plain) = match *command {
        Command::Init(init) => {
            (calls::write_init(alike::init(init), first), codec::write_init(init, second))
        }
        Command::Update(settings) => update(settings, count, first, second),
        Command::Stop => (calls::write_stop(first), codec::write_stop(second)),
        Command::Single(single) => {
            (calls::write_single(alike::single(single), first), codec::write_single(single, second))
        }
    };
    let told = (command, count, room);
    same("a writing", &told, &(library.answer, library.used.into()), &(plain.answer, plain.used));
    same_all("bytes of a writing", &told, &outs[0], &outs[1]);
}

fn update(
    settings: [Setting; 8],
    count: usize,
    first: &mut [u8],
    second: &mut [u8],
) -> (raw::Wrote, codec::Wrote) {
    (
        calls::write_update(alike::settings(settings), count, first),
        codec::write_update(&settings, count, second),
    )
}
