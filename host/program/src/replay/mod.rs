//! `yarrowbell replay`

mod calls;
mod events;
mod line;

use crate::against::Against;
use crate::course::Courses;
use crate::failure::{BadInput, Failure, Out};
use crate::input::{self, Source};
use crate::output::{Leaving, Output, Outputs};
use crate::picture::title;
use crate::play::Step;
use crate::session::Session;
use crate::unit::Unit;
use crate::{hex, number, profile, story};
use clap::Args;
use events::Events;
use std::path::{Path, PathBuf};
use yarrowbell::{sheet, Guard, Profile};

/// The names of two units beside each other, in words and in the events.
const NAMES: [&str; 2] = ["the first", "the second"];
const SHORT: [&str; 2] = ["first", "second"];

/// Play a session file on the proved unit and tell what it did
///
/// A session file is text. A line is a clock, in tenths of a millisecond, and the bytes in hex that
/// are sent at that clock; clocks do not fall. The last line may be a clock and the word end: the
/// unit ticks on until then. What follows # is a comment.
#[derive(Args)]
#[command(after_help = "\
A profile is a TOML file with any of these lines, the others being as here:
  currents = [127, 127, 127, 127, 127, 127, 127, 127]   # mA, 0 to 127, channels 1 to 8
  widths = [500, 500, 500, 500, 500, 500, 500, 500]     # µs, 0 to 500
  charge = 63500                                        # nC, 0 to 63500
  shortest_t1 = 30                                      # tenths of a ms, 30 to 10235
  watchdog = 600000                                     # tenths of a ms, 1 to 600000

Example of a session, document 01's case 12:
  0 88 01 20 00 30 12         # Init of channels 1 and 3
  5 BB 01 48 28 22 2C 1E      # Update of their settings
  300 end

Examples:
  yarrowbell replay case12.session --profile lax.toml --against strict.toml --plot case12.svg
  yarrowbell replay case12.session --profile lax.toml --events case12.csv
  yarrowbell replay case12.session --sheet case12.csv")]
pub struct Replay {
    /// The session file; - is standard input, here or for one of the profiles
    #[arg(value_name = "SESSION")]
    session: Source,

    /// The profile of the unit; without it the loosest one
    #[arg(long, value_name = "P.toml")]
    profile: Option<Source>,

    /// The capacity of its trace ring in bytes, 16 to 4096
    #[arg(long, value_name = "N", default_value_t = 4096)]
    #[arg(value_parser = number::capacity, allow_negative_numbers = true)]
    capacity: usize,

    /// A second unit of this profile, played beside the first
    #[arg(long, value_name = "Q.toml", conflicts_with = "calls")]
    against: Option<Source>,

    /// List every difference of the two units, not only the first twenty of each kind
    #[arg(long, requires = "against")]
    all: bool,

    /// Print a CSV line for each call instead of the story
    #[arg(long)]
    calls: bool,

    /// Print the events as JSON, one object in a line, instead of the story
    #[arg(long, conflicts_with = "calls")]
    json: bool,

    /// Write a CSV line for each event: command, stray byte, dropped or unfinished frame, pulse,
    /// trip, and the end
    #[arg(long, value_name = "OUT.csv")]
    events: Option<PathBuf>,

    /// Print the ring's bytes in hex in a last line, for each unit; behind calls they are a comment,
    /// and the events have them at their end
    #[arg(long)]
    readout: bool,

    /// Write the ring's records at the end as a text sheet; given twice, the second is the second
    /// unit's
    #[arg(long, value_name = "OUT.csv")]
    sheet: Vec<PathBuf>,

    /// Draw what the unit did, or both units did
    #[arg(long, value_name = "OUT.svg")]
    plot: Option<PathBuf>,

    /// Draw a lane for every channel, also for those that are neither listed nor pulse
    #[arg(long, requires = "plot")]
    all_lanes: bool,

    /// End at this clock instead of where the session ends
    #[arg(long, value_name = "CLOCK")]
    #[arg(value_parser = number::clock, allow_negative_numbers = true)]
    until: Option<u32>,
}

impl Replay {
    pub fn run(self, out: Out) -> Result<(), Failure> {
        input::once(&[
            ("<SESSION>", Some(&self.session)),
            ("--profile", self.profile.as_ref()),
            ("--against", self.against.as_ref()),
        ])?;
        let session = Session::of_file(&self.session)?;
        let session = match self.until {
            Some(clock) => session.until(clock),
            None => session,
        };
        let first = profile::of_file(self.profile.as_ref())?;
        let second = self.against.as_ref().map(|file| profile::of_file(Some(file)));
        let second = second.transpose()?;
        let guards = [first].into_iter().chain(second).map(|profile| self.guard(profile));
        let mut guards = guards.collect::<Result<Vec<Guard>, BadInput>>()?;
        let mut outputs = Outputs::new(self.inputs());
        let plot = self.plot.as_deref().map(|path| outputs.plan(path)).transpose()?;
        let file = self.events.as_deref().map(|path| outputs.plan(path)).transpose()?;
        let sheets = self.sheets(guards.len(), &mut outputs)?;
        let (names, short): (&[&str], &[&str]) =
            if guards.len() == 1 { (&["unit"], &["unit"]) } else { (&NAMES, &SHORT) };

        let files = plot.is_some() || file.is_some() || !sheets.is_empty();
        let out: Out = &mut Leaving::new(out, files);
        let mut courses = Courses::of(guards.len());
        let mut against = Against::listing(self.all);
        let mut file = file.map(|file| Events::in_file(short, file));
        let each = |step: Step| {
            if let Some(events) = &mut file {
                events.step(&step)?;
            }
            against.step(&step);
            if plot.is_some() {
                courses.add(step);
            }
            Ok(())
        };
        let mut units: Vec<&mut dyn Unit> = Vec::new();
        for guard in &mut guards {
            units.push(guard);
        }
        let ends = if self.calls {
            calls::print(&session, &mut units, each, out)?
        } else if self.json {
            events::print(&session, short, &mut units, self.readout, each, out)?
        } else {
            story::tell(&session, names, &mut units, each, out)?
        };
        if let Some(events) = &mut file {
            events.end(&ends, &units, self.readout)?;
        }
        match &second {
            Some(second) if self.json => against.print(&first, second, out)?,
            Some(second) => against.tell(NAMES, &first, second, out)?,
            None => (),
        }
        if !self.json {
            self.print_readouts(&guards, out)?;
        }
        if let Some(events) = file {
            events.finish(out)?;
        }
        for (guard, file) in guards.iter().zip(sheets) {
            let sheet = sheet::of(&guard.trace()).expect("every trace of a unit is written: proved");
            file.put(sheet, out)?;
        }
        if let Some(plot) = plot {
            plot.put(&courses.drawn(&self.titles(), session.end(), self.all_lanes), out)?;
        }
        Ok(())
    }

    /// The files for the sheets, not more than there are units.
    fn sheets(&self, units: usize, outputs: &mut Outputs) -> Result<Vec<Output>, BadInput> {
        if self.sheet.len() > units {
            let (files, s) = (self.sheet.len(), if units == 1 { "" } else { "s" });
            let what = format!("{files} files for {units} unit{s}, and each has one sheet");
            return Err(BadInput::argument("--sheet", what));
        }
        self.sheet.iter().map(|path| outputs.plan(path)).collect()
    }

    /// What stands above each unit's panel.
    fn titles(&self) -> Vec<String> {
        let [first, second] =
            [&self.profile, &self.against].map(|of| of.as_ref().map(Source::name));
        let title = |name, profile| title::of(name, self.session.name(), profile);
        match second {
            None => vec![title(None, first)],
            second => {
                let profiles = NAMES.into_iter().zip([first, second]);
                profiles.map(|(name, profile)| title(Some(name), profile)).collect()
            }
        }
    }

    /// The rings' bytes, if they are asked for: behind calls as a comment, so that the CSV stays one.
    fn print_readouts(&self, guards: &[Guard], out: Out) -> Result<(), Failure> {
        let mark = if self.calls { "# " } else { "" };
        for guard in guards.iter().filter(|_| self.readout) {
            let line = format!("{mark}{}", hex::spelt(&guard.trace()));
            writeln!(out, "{}", line.trim_end())?;
        }
        Ok(())
    }

    /// The files that it reads.
    fn inputs(&self) -> impl Iterator<Item = (&str, &Path)> {
        let files = [Some(&self.session), self.profile.as_ref(), self.against.as_ref()];
        let named = ["the session", "the profile", "the second profile"].into_iter().zip(files);
        named.filter_map(|(what, file)| Some((what, file?.path())))
    }

    fn guard(&self, profile: Profile) -> Result<Guard, BadInput> {
        Guard::new(profile, self.capacity)
            .map_err(|refusal| BadInput::argument("--capacity", refusal))
    }
}
