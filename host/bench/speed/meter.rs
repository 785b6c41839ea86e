//! What criterion measures, side against side, and the medians that it finds.

use crate::names::{Group, GROUPS};
use criterion::{Bencher, BenchmarkId, Criterion, SamplingMode};
use std::collections::BTreeSet;
use std::path::{Path, PathBuf};
use std::time::{Duration, SystemTime};
use std::{env, fs};

/// The variable that tells criterion where to keep its estimates.
const HOME: &str = "CRITERION_HOME";

/// How often each side is measured.
const TURNS: usize = 3;

/// A side's name, and its work.
pub type Side<'a> = (&'a str, &'a dyn Fn(&mut Bencher));

pub struct Meter {
    criterion: Criterion,
    estimates: PathBuf,
    began: SystemTime,
    /// The names of the measurements so far, whether they were asked for or not.
    names: BTreeSet<String>,
}

/// The nanoseconds of one call on each side.
#[derive(Clone, Copy)]
pub struct Pair {
    pub library: f64,
    pub plain: f64,
}

impl Pair {
    /// How fast the library is: at 1 or more it is no slower.
    pub fn ratio(self) -> f64 {
        self.plain / self.library
    }
}

impl Meter {
    pub fn new() -> Meter {
        let estimates = match env::var_os(HOME) {
            Some(folder) => PathBuf::from(folder),
            None => Path::new(env!("CARGO_TARGET_TMPDIR")).with_file_name("criterion"),
        };
        env::set_var(HOME, &estimates);
        let criterion = Criterion::default()
            .without_plots()
            .warm_up_time(Duration::from_millis(100))
            .measurement_time(Duration::from_millis(300))
            .sample_size(30)
            .nresamples(2_000)
            .configure_from_args();
        Meter { criterion, estimates, began: SystemTime::now(), names: BTreeSet::new() }
    }

    /// Measures the library and the plain side.
    pub fn pair(
        &mut self,
        group: &str,
        what: &str,
        library: impl Fn(&mut Bencher),
        plain: impl Fn(&mut Bencher),
    ) -> Option<Pair> {
        let sides: [Side; 2] = [("library", &library), ("plain", &plain)];
        let [library, plain] = self.in_turn(group, what, sides)?;
        Some(Pair { library, plain })
    }

    /// Measures the sides in turn, some times over, so that a busy while of the machine is not one
    /// side's alone, and takes the least of each side's medians. Nothing comes back unless all were
    /// measured: the user may have asked for other measurements, or for none.
    pub fn in_turn<const N: usize>(
        &mut self,
        group: &str,
        what: &str,
        sides: [Side; N],
    ) -> Option<[f64; N]> {
        let mut least = [f64::MAX; N];
        for _ in 0..TURNS {
            let medians = sides.map(|side| self.once(group, what, side));
            for (least, median) in least.iter_mut().zip(medians) {
                *least = least.min(median?);
            }
        }
        Some(least)
    }

    fn once(&mut self, group: &str, what: &str, (name, run): Side) -> Option<f64> {
        self.names.insert(format!("{group}/{name}/{what}"));
        self.criterion
            .benchmark_group(group)
            .sampling_mode(SamplingMode::Flat)
            .bench_function(BenchmarkId::new(name, what), run);
        self.median(&self.estimates.join(group).join(name).join(what))
    }

    /// Stops if the measurements, of which none is left to come, have other names than are listed.
    pub fn check_names(&self) {
        let listed: BTreeSet<String> = GROUPS.iter().flat_map(Group::names).collect();
        let other: Vec<&String> = self.names.symmetric_difference(&listed).collect();
        assert!(other.is_empty(), "speed/names.rs and the measurements differ in {other:?}");
    }

    /// The median in criterion's file, if it was written in this run.
    fn median(&self, benchmark: &Path) -> Option<f64> {
        let file = benchmark.join("new").join("estimates.json");
        let written = fs::metadata(&file).and_then(|about| about.modified()).ok()?;
        if written < self.began {
            return None;
        }
        let text = fs::read_to_string(&file).expect("criterion's estimates can be read");
        let estimates: serde_json::Value =
            serde_json::from_str(&text).expect("criterion's estimates are JSON");
        estimates["median"]["point_estimate"].as_f64()
    }
}
