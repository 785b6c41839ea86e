//! `yarrowbell lesson`

mod charge;
mod fields;
mod limits;
mod page;
mod ring;
mod wrong;

use crate::course::Courses;
use crate::failure::{Failure, Out};
use crate::output::{Leaving, Outputs};
use crate::picture::pulse;
use clap::{Args, Subcommand};
use std::path::PathBuf;

/// Show a mistake of the classroom: a unit that makes it beside the proved one
///
/// Each lesson prints the wrong code that it runs, what came of it beside the proved unit on the
/// same input, the customer's rule and what is proved.
#[derive(Args)]
#[command(after_help = "\
Example:
  yarrowbell lesson ring")]
pub struct Lesson {
    #[command(subcommand)]
    of: Of,
}

#[derive(Subcommand)]
enum Of {
    /// A record past the ring's end changes the command beside it
    #[command(after_help = "\
Example:
  yarrowbell lesson ring")]
    Ring(Words),
    /// A trace read by guessed fields shows 41,200 mA, which are the clock
    #[command(after_help = "\
Example:
  yarrowbell lesson fields")]
    Fields(Words),
    /// A strict unit keeps its old settings after answer 9, and pulses where the lax one is silent
    #[command(after_help = "\
Example:
  yarrowbell lesson limits")]
    Limits(Words),
    /// A pulse of equal and opposite currents leaves charge behind, for one flows longer
    #[command(after_help = "\
Example:
  yarrowbell lesson charge")]
    Charge(Plot),
}

#[derive(Args)]
struct Plot {
    /// Draw the wrong one above the proved one
    #[arg(long, value_name = "OUT.svg")]
    plot: Option<PathBuf>,
}

#[derive(Args)]
struct Words {
    #[command(flatten)]
    plot: Plot,

    /// Draw a lane for every channel, also for those that are neither listed nor pulse
    #[arg(long, requires = "plot")]
    all_lanes: bool,
}

/// What a lesson draws: the wrong one and the proved one.
enum Drawn {
    /// With the clock at the end.
    Courses {
        titles: [&'static str; 2],
        courses: Courses,
        end: u32,
    },
    Pulses(Vec<pulse::Panel>),
}

impl Drawn {
    fn svg(&self, all_lanes: bool) -> String {
        match self {
            Drawn::Courses { titles, courses, end } => courses.drawn(titles, *end, all_lanes),
            Drawn::Pulses(panels) => pulse::svg(panels),
        }
    }
}

impl Lesson {
    pub fn run(self, out: Out) -> Result<(), Failure> {
        let (plot, all_lanes) = match &self.of {
            Of::Ring(words) | Of::Fields(words) | Of::Limits(words) => {
                (&words.plot, words.all_lanes)
            }
            Of::Charge(plot) => (plot, false),
        };
        let plot = plot.plot.as_deref().map(|path| Outputs::new([]).plan(path)).transpose()?;
        let out: Out = &mut Leaving::new(out, plot.is_some());
        let drawn = match self.of {
            Of::Ring(_) => ring::teach(out)?,
            Of::Fields(_) => fields::teach(out)?,
            Of::Limits(_) => limits::teach(out)?,
            Of::Charge(_) => Drawn::Pulses(charge::teach(out)?),
        };
        if let Some(plot) = plot {
            plot.put(&drawn.svg(all_lanes), out)?;
        }
        Ok(())
    }
}
