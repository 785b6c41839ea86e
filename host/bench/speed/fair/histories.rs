//! Short random histories of boxes.

use super::boxes::{play, read_out};
use super::random;
use super::same::same;
use crate::boxes::{Calls, Scene};
use crate::seeded::seeded;
use crate::MOST;
use independent::plain::machine::BoxRecord;
use independent::Part;
use rand::rngs::SmallRng;
use rand::Rng;
use soak::alike;
use yarrowbell::calls;

pub fn check() {
    const CASES: u64 = 500;
    let mut number = 0;
    seeded(0..CASES, |rng| {
        let mut scene = fresh(rng);
        for _ in 0..40 {
            let calls = next(rng, &scene.record);
            number += calls.number();
            scene = play(&scene, &calls);
            read_out(&scene);
        }
    });
    println!("library and plain agree on {CASES} random histories of boxes, {number} calls");
}

/// A fresh box as both sides make it, somewhere in a buffer.
fn fresh(rng: &mut SmallRng) -> Scene {
    let profile = random::profile(rng);
    let size = if rng.gen_range(0..8) == 0 { MOST } else { rng.gen_range(16..=200) };
    let record = BoxRecord::new(profile, size).expect("a good profile and capacity");
    let made = calls::make(alike::profile(profile), size as u32);
    same("a fresh box", &profile, &(made.answer, made.made), &(0, alike::record(&record)));
    let offset = rng.gen_range(0..64);
    let mut buffer = vec![0; offset + size + rng.gen_range(0..64)];
    rng.fill(&mut buffer[..]);
    Scene { record, buffer, at: Part { offset, size } }
}

/// A frame for the list that runs, or some ticks.
fn next(rng: &mut SmallRng, record: &BoxRecord) -> Calls {
    match rng.gen_range(0..8) {
        0 => Calls::Ticks(rng.gen_range(100..=600)),
        1..=3 => Calls::Ticks(rng.gen_range(1..=40)),
        _ => {
            let count = record.run.list.channel_stim.count_ones().max(1) as usize;
            let command = random::command(rng, count);
            Calls::Bytes(random::frame(rng, &command, count))
        }
    }
}
