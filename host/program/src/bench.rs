//! `yarrowbell bench`

#[path = "../../bench/speed/names.rs"]
mod names;

use crate::failure::{BadInput, Failure};
use clap::Args;
use names::{Group, GROUPS};
use std::path::Path;
use std::process::{Command, ExitCode};
use textwrap::Options;

/// It has a workspace of its own, for nothing else needs criterion, and so is built when asked for.
const RUN: &str = concat!(env!("CARGO_MANIFEST_DIR"), "/../bench/run");

/// Those of criterion's flags that have a value behind them.
const VALUED: [&str; 17] = [
    "-b",
    "--baseline",
    "-c",
    "--color",
    "--confidence-level",
    "--load-baseline",
    "--measurement-time",
    "--noise-threshold",
    "--nresamples",
    "--output-format",
    "--plotting-backend",
    "--profile-time",
    "-s",
    "--sample-size",
    "--save-baseline",
    "--significance-level",
    "--warm-up-time",
];

/// Measure the library against plain Rust and print the ratios
///
/// Builds the benchmark first, in the folder that this program was built in. All of it takes some
/// minutes.
#[derive(Args)]
#[command(after_help = "\
Example, the ticks alone:
  yarrowbell bench tick")]
pub struct Bench {
    /// Which measurements, by a part of their name, or what criterion takes: --test runs each once
    /// and measures nothing
    #[arg(value_name = "NAME", allow_hyphen_values = true)]
    words: Vec<String>,
}

impl Bench {
    pub fn run(self) -> Result<ExitCode, Failure> {
        let (flags, picked) = sorted(&self.words);
        for word in &picked {
            check(word)?;
        }
        // Criterion takes one word, a pattern.
        let pattern = (!picked.is_empty()).then(|| picked.join("|"));
        let status = Command::new(RUN)
            .args(flags)
            .args(pattern)
            .status()
            .map_err(|error| BadInput::file(Path::new(RUN), error))?;
        Ok(ExitCode::from(match status.code() {
            Some(0) => 0,
            // By criterion, of its flags.
            Some(1) => 2,
            Some(3) => 3,
            // The sides do not do the same work.
            _ => 1,
        }))
    }
}

/// Criterion's flags with their values, and the words that pick measurements.
fn sorted(words: &[String]) -> (Vec<&str>, Vec<&str>) {
    let (mut flags, mut picked) = (Vec::new(), Vec::new());
    let mut valued = false;
    for word in words.iter().map(String::as_str) {
        let flag = valued || word.starts_with('-');
        valued = !valued && VALUED.contains(&word);
        if flag {
            flags.push(word);
        } else {
            picked.push(word);
        }
    }
    (flags, picked)
}

/// The word is a part of some name.
fn check(word: &str) -> Result<(), BadInput> {
    if GROUPS.iter().flat_map(Group::names).any(|name| name.contains(word)) {
        return Ok(());
    }
    let groups: Vec<String> = GROUPS.iter().map(told).collect();
    let which = "a name is GROUP/SIDE/CALL, and there are";
    let what = format!("no measurement has {word:?} in its name; {which}\n{}", groups.join("\n"));
    Err(BadInput::argument("[NAME]...", what))
}

/// The names of a group.
fn told(group: &Group) -> String {
    let Group { name, sides, calls } = group;
    let names = format!("{name} ({}): {}", sides.join(", "), calls.join("; "));
    let options = Options::new(100).initial_indent("  ").subsequent_indent("    ");
    textwrap::fill(&names, options)
}

#[cfg(test)]
mod tests {
    use super::{check, sorted};

    #[test]
    fn flags_and_names() {
        let words = ["tick", "--test", "byte", "--sample-size", "20", "-s", "--test", "idle"];
        let words = words.map(str::to_owned);
        let flags = vec!["--test", "--sample-size", "20", "-s", "--test"];
        assert_eq!(sorted(&words), (flags, vec!["tick", "byte", "idle"]));
    }

    #[test]
    fn parts_of_names() {
        for word in ["tick", "tick/plain/idle", "in place", "512 mixed, 3756 bytes, round", "/"] {
            assert!(check(word).is_ok(), "{word}");
        }
        for word in ["NOSUCH", "Tick", "tick/library", "tick|byte", "."] {
            assert!(check(word).is_err(), "{word}");
        }
    }
}
