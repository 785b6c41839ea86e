//! `yarrowbell soak`

use crate::failure::{Failure, Out};
use crate::number;
use crate::progress::Progress;
use crate::words::thousands;
use clap::Args;
use soak::met::Met;
use soak::{history, packets, pairs, sheets};

/// Make random calls on the box, on packets and on sheets, and compare every call with independent code
///
/// Prints what the histories, the packets and the sheets came across, and stops at the first difference
/// with exit status 1.
#[derive(Args)]
#[command(after_help = "\
Example:
  yarrowbell soak --calls 1000000")]
pub struct Soak {
    /// How many calls to make at least
    #[arg(long, value_name = "N", default_value_t = 20_000_000)]
    #[arg(value_parser = number::count, allow_negative_numbers = true)]
    calls: u64,

    /// The first seed; the next histories, packets and sheets have the next seeds. A failing one repeats
    /// its own
    #[arg(long, value_name = "SEED", default_value_t = 1)]
    #[arg(value_parser = number::count, allow_negative_numbers = true)]
    seed: u64,
}

impl Soak {
    pub fn run(self, out: Out) -> Result<(), Failure> {
        let mut met = Met::default();
        let ran = self.soak(&mut met);
        let calls = met.all_calls();
        let met = [met.of_histories(), met.of_pairs(), met.of_packets(), met.of_sheets()];
        for (what, count) in met.concat() {
            writeln!(out, "{}", line(&what, count, calls))?;
        }
        ran?;
        writeln!(out, "{}", line("calls, all agree", calls, calls))?;
        Ok(())
    }

    fn soak(&self, met: &mut Met) -> Result<(), soak::Failure> {
        let progress = Progress::of_calls(self.calls);
        for seed in self.seed.. {
            history::run(seed, met)?;
            pairs::run(seed, met)?;
            packets::run(seed, met)?;
            sheets::run(seed, met)?;
            let done = met.all_calls();
            progress.done(done.min(self.calls));
            if done >= self.calls {
                break;
            }
        }
        Ok(())
    }
}

/// A count and what was counted, in columns that have room for the number of all calls.
fn line(what: &str, count: u64, calls: u64) -> String {
    let width = thousands(calls).len();
    format!("{:>width$}  {what}", thousands(count))
}

#[cfg(test)]
mod tests {
    use super::line;

    #[test]
    fn columns() {
        let calls = 4_000_000_000_000;
        assert_eq!(line("rings wrapped", 12_345, calls), "           12,345  rings wrapped");
        assert_eq!(line("calls", calls, calls), "4,000,000,000,000  calls");
    }
}
