//! The soak for the gate: long enough to meet everything that there is to meet.

use soak::met::Met;
use soak::{history, packets, pairs, sheets, Failure};

/// How often each thing must have been met at least.
const OFTEN: u64 = 40;

/// What the trials came across from this seed on, until they made so many calls.
fn met(
    first_seed: u64,
    calls: u64,
    made: fn(&Met) -> u64,
    run: fn(u64, &mut Met) -> Result<(), Failure>,
) -> Met {
    let mut met = Met::default();
    let mut seeds = first_seed..;
    while made(&met) < calls {
        let seed = seeds.next().expect("there are seeds enough");
        run(seed, &mut met).unwrap_or_else(|failure| panic!("{failure}"));
    }
    met
}

fn all_met(lines: Vec<(String, u64)>, least: u64) {
    for (what, count) in lines {
        assert!(count >= least, "{what}: met {count} times, which is too seldom");
    }
}

#[test]
fn histories() {
    let met = met(1_000_000, 8_000_000, |met| met.calls, history::run);
    all_met(met.of_histories(), OFTEN);
}

#[test]
fn profiles_that_are_nowhere_looser() {
    let met = met(2_000_000, 4_000_000, |met| met.pair_calls, pairs::run);
    all_met(met.of_pairs(), 1_000);
}

#[test]
fn packets_of_every_device() {
    let met = met(4_000_000, 800_000, Met::all_calls, packets::run);
    all_met(met.of_packets(), OFTEN);
}

#[test]
fn readouts_as_sheets() {
    let met = met(5_000_000, 100_000, Met::all_calls, sheets::run);
    all_met(met.of_sheets(), OFTEN);
}
