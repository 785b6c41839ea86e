//! Cases by their seeds.

use rand::rngs::SmallRng;
use rand::SeedableRng;

/// Runs `case` once for each seed. A failing one is named and can be run alone by its seed.
pub fn seeded(seeds: std::ops::Range<u64>, mut case: impl FnMut(&mut SmallRng)) {
    for seed in seeds {
        let _named = Named(seed);
        case(&mut SmallRng::seed_from_u64(seed));
    }
}

struct Named(u64);

impl Drop for Named {
    fn drop(&mut self) {
        if std::thread::panicking() {
            eprintln!("the failing seed: {}", self.0);
        }
    }
}
