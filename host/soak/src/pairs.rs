//! Two boxes, the second of a profile nowhere looser than the first's, through the same bytes and
//! ticks.
//!
//! Each pulse of the second the first releases in the same call. From the start, or from a call by
//! which the second leaves the tripped state, until just before it next trips, that is in every
//! call that does not leave it tripped, both say the same.

use crate::failure::{same, Failure, Named};
use crate::met::Met;
use crate::pick::any;
use crate::{act, numbers, profiles};
use rand::rngs::SmallRng;
use rand::{Rng, SeedableRng};
use yarrowbell::{Guard, Profile, State, Told};

const TRIAL: &str = "pair";

/// Runs the pair of this seed.
pub fn run(seed: u64, met: &mut Met) -> Result<(), Failure> {
    let _named = Named { trial: TRIAL, seed };
    let mut rng = SmallRng::seed_from_u64(seed);
    let lax = profiles::good(&mut rng);
    let tight = profiles::tighter(&mut rng, lax);
    assert!(numbers::profile(tight).nowhere_looser(&numbers::profile(lax)), "{tight:?}, {lax:?}");
    let mut pair = Pair { lax: guard(&mut rng, lax), tight: guard(&mut rng, tight), calls: 0, met };
    let ran = pair.run(&mut rng);
    let call = pair.calls;
    ran.map_err(|what| Failure { trial: TRIAL, seed, call, what })
}

fn guard(rng: &mut SmallRng, profile: Profile) -> Guard {
    let capacity = rng.gen_range(16..=200);
    Guard::new(profile, capacity).expect("profile and capacity are good")
}

struct Pair<'a> {
    lax: Guard,
    tight: Guard,
    calls: u64,
    met: &'a mut Met,
}

impl Pair<'_> {
    fn run(&mut self, rng: &mut SmallRng) -> Result<(), String> {
        let calls = rng.gen_range(200..4_000);
        while self.calls < calls {
            let unit = *any(rng, &[&self.lax, &self.tight]).record();
            if rng.gen_range(0..5) < 3 {
                for (pause, byte) in act::bytes(rng, &unit) {
                    self.ticks(pause)?;
                    self.call(|guard| guard.byte(byte))?;
                }
            } else {
                self.ticks(act::ticks(rng, &unit))?;
            }
        }
        Ok(())
    }

    fn ticks(&mut self, ticks: u32) -> Result<(), String> {
        (0..ticks).try_for_each(|_| {
            self.call(|guard| guard.tick().expect("the clock is far from its end"))
        })
    }

    fn call(&mut self, call: impl Fn(&mut Guard) -> Told) -> Result<(), String> {
        self.calls += 1;
        self.met.pair_calls += 1;
        let was_tripped = tripped(&self.tight);
        let (of_lax, of_tight) = (call(&mut self.lax), call(&mut self.tight));
        let told = || format!("the tighter box, {:?} beside {:?}", self.tight, self.lax);
        let common = of_tight.released().filter(|&pulse| of_lax.released().any(|p| p == pulse));
        let common: Vec<_> = common.collect();
        same(&of_tight.released().collect(), &common, || told() + ", pulses")?;
        let is_tripped = tripped(&self.tight);
        if !is_tripped {
            same(&of_tight, &of_lax, told)?;
        }
        let lax_pulses = of_lax.released().count() - common.len();
        self.met.pair_trips += u64::from(is_tripped && !was_tripped);
        self.met.pair_rejoinings += u64::from(was_tripped && !is_tripped);
        self.met.pair_pulses += common.len() as u64;
        self.met.pair_lax_pulses += lax_pulses as u64;
        Ok(())
    }
}

fn tripped(guard: &Guard) -> bool {
    guard.state() == State::Tripped
}
