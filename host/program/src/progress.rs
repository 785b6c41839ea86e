//! How far a long run has come, on standard error if that is a terminal.

use crate::words::thousands;
use console::Term;
use indicatif::{HumanDuration, ProgressBar, ProgressState, ProgressStyle};
use std::fmt::Write;
use std::io::{self, IsTerminal};
use std::time::Duration;

/// A run that is over sooner shows nothing.
const SHORT: Duration = Duration::from_secs(1);

/// Words that would leave the bar fewer columns are left out.
const BAR: usize = 6;

pub struct Progress(ProgressBar);

impl Progress {
    pub fn of_calls(calls: u64) -> Progress {
        Progress::new(calls, "calls")
    }

    /// For lines on standard output: none if they fill a terminal by themselves, where the bar would
    /// tear them.
    pub fn beside_lines(all: u64, of: &'static str) -> Progress {
        if io::stdout().is_terminal() {
            Progress(ProgressBar::hidden())
        } else {
            Progress::new(all, of)
        }
    }

    /// Of so many things, which have this name.
    fn new(all: u64, of: &'static str) -> Progress {
        let line = move |state: &ProgressState, out: &mut dyn Write| {
            let done = state.pos().min(all);
            let far = Far { done, all, of, time: state.elapsed() };
            let columns = Term::stderr().size().1.into();
            out.write_str(&far.line(columns)).expect("indicatif takes all that is written");
        };
        let style = ProgressStyle::with_template("{line}").expect("it has a word in braces");
        Progress(ProgressBar::new(all).with_style(style.with_key("line", line)))
    }

    /// One call more.
    pub fn call(&self) {
        self.0.inc(1);
    }

    /// So many in all.
    pub fn done(&self, done: u64) {
        self.0.set_position(done);
    }

    /// Prints, without the bar in between.
    pub fn aside<R>(&self, print: impl FnOnce() -> R) -> R {
        self.0.suspend(print)
    }
}

impl Drop for Progress {
    fn drop(&mut self) {
        self.0.finish_and_clear();
    }
}

/// How many are done, of how many and of what, in which time.
struct Far {
    done: u64,
    all: u64,
    of: &'static str,
    time: Duration,
}

impl Far {
    /// A bar, and behind it those words that have room in so many columns.
    fn line(&self, columns: usize) -> String {
        if self.time < SHORT {
            return String::new();
        }
        let words = self.words().into_iter().map(|words| format!(" {words}"));
        let words = words.into_iter().find(|words| BAR + words.len() <= columns);
        let words = words.unwrap_or_default();
        self.bar(columns - words.len()) + &words
    }

    /// What can be said, from the most to the least.
    fn words(&self) -> Vec<String> {
        let all = thousands(self.all);
        let count = format!("{:>1$}/{all} {2}", thousands(self.done), all.len(), self.of);
        let percent = format!("{:.0}%", self.part() * 100.0);
        let rate = self.done as f64 / self.time.as_secs_f64();
        let left = (self.all - self.done) as f64 / rate;
        match Duration::try_from_secs_f64(left) {
            Ok(left) => {
                let left = format!("{:#} left", HumanDuration(left));
                let rate = thousands(rate as u64);
                let most = format!("{count}, {rate}/s, {left}");
                vec![most, format!("{count}, {left}"), count, percent]
            }
            Err(_) => vec![count, percent],
        }
    }

    fn bar(&self, columns: usize) -> String {
        let full = (self.part() * columns as f64) as usize;
        "█".repeat(full) + &"░".repeat(columns - full)
    }

    /// What is done, from 0 to 1.
    fn part(&self) -> f64 {
        self.done as f64 / self.all.max(1) as f64
    }
}

#[cfg(test)]
mod tests {
    use super::{Duration, Far, SHORT};

    fn far(done: u64, all: u64, milliseconds: u64) -> Far {
        Far { done, all, of: "calls", time: Duration::from_millis(milliseconds) }
    }

    #[test]
    fn a_short_run_shows_nothing() {
        assert_eq!(far(5, 10, 999).line(80), "");
        assert_ne!(far(5, 10, 1_000).line(80), "");
    }

    #[test]
    fn as_many_words_as_have_room() {
        let soak = far(5_000_000, 20_000_000, 12_345);
        let calls = "  5,000,000/20,000,000 calls";
        let [most, fewer] =
            ["405,022/s, 37s left", "37s left"].map(|end| format!("{calls}, {end}"));
        for (columns, words) in [
            (80, most.as_str()),
            (55, &most),
            (54, &fewer),
            (44, &fewer),
            (43, calls),
            (34, calls),
            (33, " 25%"),
            (10, " 25%"),
            (9, ""),
            (0, ""),
        ] {
            let bar = columns - words.len();
            let line = "█".repeat(bar / 4) + &"░".repeat(bar - bar / 4) + words;
            assert_eq!(soak.line(columns), line, "{columns}");
        }
    }

    /// No line is longer than its terminal, and all numbers are whole.
    #[test]
    fn every_width() {
        for all in [1, 2_951, 20_000_000, u32::MAX.into(), u64::MAX] {
            for done in [0, 1, all / 3, all] {
                for time in [SHORT.as_millis() as u64, 12_345, 400_000_000] {
                    for columns in 0..200 {
                        let line = far(done, all, time).line(columns);
                        assert_eq!(line.chars().count(), columns, "{line}");
                        assert!(!line.contains('.'), "{line}");
                    }
                }
            }
        }
    }

    #[test]
    fn bytes() {
        let line = Far { of: "bytes", ..far(1, 2, 1_000) }.line(20);
        assert_eq!(line, "█████░░░░░ 1/2 bytes");
    }

    /// The longest session leaves room for a bar in 40 columns.
    #[test]
    fn the_longest_session() {
        let line = far(1 << 31, u32::MAX.into(), 9_999).line(40);
        assert_eq!(line, "███░░░ 2,147,483,648/4,294,967,295 calls");
    }
}
