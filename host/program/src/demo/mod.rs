//! `yarrowbell demo`

mod files;

use crate::against::Against;
use crate::course::Courses;
use crate::failure::{BadInput, Failure, Out};
use crate::output::{Leaving, Output, Outputs};
use crate::session::Session;
use crate::{hex, story};
use clap::Args;
use files::FILES;
use std::env;
use std::io::Write;
use std::path::Path;
use yarrowbell::{Guard, Profile};

/// Document 01's case 12.
const SESSION: &str = "\
0 88 01 20 00 30 12
5 BB 01 48 28 22 2C 1E
300 end
";

const LAX: Profile = Profile { watchdog: 250, ..Profile::LOOSEST };
const STRICT: Profile = Profile { watchdog: 150, ..LAX };

const CAPACITY: usize = 4096;
const NAMES: [&str; 2] = ["lax", "strict"];
const TITLES: [&str; 2] = ["lax: case 12, watchdog 25.0 ms", "strict: case 12, watchdog 15.0 ms"];

/// Play document 01's case 12 on a lax unit and on a strict one
///
/// Prints the commands with their answers, pulses and trips, and writes into the current folder the
/// traces, demo-lax.trace and demo-strict.trace, and a picture, demo.svg. Files of these names that
/// it did not write itself are not overwritten.
#[derive(Args)]
#[command(after_help = "\
Example:
  yarrowbell demo")]
pub struct Demo {
    /// Overwrite them all the same
    #[arg(long)]
    force: bool,
}

impl Demo {
    pub fn run(self, out: Out) -> Result<(), Failure> {
        let session = Session::of_text(SESSION, Path::new("case 12"))?;
        if !self.force {
            files::none_of_others()?;
        }
        let mut outputs = Outputs::new([]);
        let planned = FILES.iter().map(|file| outputs.plan(Path::new(file.name)));
        let mut planned = planned.collect::<Result<Vec<Output>, BadInput>>()?;
        let mut guards = [LAX, STRICT].map(|profile| {
            Guard::new(profile, CAPACITY).expect("the profile and the capacity are good")
        });

        let out: Out = &mut Leaving::new(out, true);
        tell_files(out)?;
        writeln!(out, "Document 01's case 12 on two guard units:")?;
        writeln!(out, "  lax     limits at their loosest, watchdog 25.0 ms")?;
        writeln!(out, "  strict  the same, but watchdog 15.0 ms")?;
        writeln!(out)?;
        let mut against = Against::default();
        let mut courses = Courses::of(guards.len());
        let [lax, strict] = &mut guards;
        let each = |step| {
            against.step(&step);
            courses.add(step);
            Ok(())
        };
        story::tell(&session, &NAMES, &mut [lax, strict], each, out)?;
        against.tell(NAMES, &LAX, &STRICT, out)?;

        let [lax, strict] = guards.map(|guard| format!("{}\n", hex::spelt(&guard.trace())));
        let contents = [lax, strict, courses.drawn(&TITLES, session.end(), false)];
        for ((file, output), content) in FILES.iter().zip(&mut planned).zip(contents) {
            write!(output, "{}\n{content}", file.mark)?;
        }
        for output in planned {
            output.finish(out)?;
        }
        writeln!(out)?;
        writeln!(out, "Written. `yarrowbell trace {}` tells what is in a trace.", FILES[0].name)?;
        Ok(())
    }
}

/// What is written, and where.
fn tell_files(out: Out) -> Result<(), Failure> {
    let here = Path::new(".");
    let folder = env::current_dir().map_err(|error| BadInput::file(here, error))?;
    writeln!(out, "Three files go into the current folder, {}:", folder.display())?;
    for file in FILES {
        writeln!(out, "  {:17}  {}", file.name, file.holds)?;
    }
    writeln!(out)?;
    Ok(())
}
