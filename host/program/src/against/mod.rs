//! Two units beside each other: where they differ, and demand 3.

mod json;
mod tally;
mod trips;

use crate::failure::{Failure, Out};
use crate::hex;
use crate::play::Step;
use crate::unit::Call;
use crate::words::counted;
use tally::Tally;
use trips::Trips;
use yarrowbell::{Cause, Profile, Released, State, Told};

/// What was seen of the second unit beside the first.
pub struct Against {
    /// The clocks of the first difference and of the last.
    between: Option<(u32, u32)>,
    answers: Tally<Answers>,
    /// What only the first unit has, and what only the second has.
    pulses: [Tally<Released>; 2],
    trips: [Tally<(u32, Cause)>; 2],
    /// The trips of the clock that the units have come to.
    now: Trips,
    /// The pulses of the second, and the calls of which demand 3's second sentence speaks.
    released: u64,
    together: u64,
    /// The clock of the first of these calls in which they differ.
    broken: Option<u32>,
}

/// A call that the units answer differently, and what each said.
struct Answers {
    clock: u32,
    call: Call,
    told: [Told; 2],
}

impl Default for Against {
    fn default() -> Against {
        Against::listing(false)
    }
}

impl Against {
    /// Lists all differences, or else the first ones of each kind.
    pub fn listing(all: bool) -> Against {
        Against {
            between: None,
            answers: Tally::new(all),
            pulses: [Tally::new(all), Tally::new(all)],
            trips: [Tally::new(all), Tally::new(all)],
            now: Trips::default(),
            released: 0,
            together: 0,
            broken: None,
        }
    }

    pub fn step(&mut self, step: &Step) {
        let [first, second] = &step.of[..] else { return };
        let (clock, told) = (step.clock, [first.told, second.told]);
        if (told[0].answer, told[0].reply) != (told[1].answer, told[1].reply) {
            self.differ(clock);
            self.answers.add(Answers { clock, call: step.call, told });
        }
        for unit in [0, 1] {
            for pulse in without(&told[unit], &told[1 - unit]) {
                self.differ(clock);
                self.pulses[unit].add(pulse);
            }
        }
        self.step_trips(step);
        self.released += second.told.released().count() as u64;
        // From the start, or from a call by which it leaves the tripped state, until just before
        // it next trips: all calls that do not leave it tripped.
        if second.state != State::Tripped {
            self.together += 1;
            let said = |told: &Told| (told.answer, told.reply, told.pulses);
            if said(&told[0]) != said(&told[1]) {
                self.broken.get_or_insert(clock);
            }
        }
    }

    fn step_trips(&mut self, step: &Step) {
        if step.clock != self.now.clock {
            self.end_clock();
            self.now.clock = step.clock;
        }
        for (unit, done) in step.of.iter().enumerate() {
            if let Some(cause) = done.told.trip {
                self.now.add(unit, cause);
            }
        }
    }

    /// Counts the trips of the clock that is over.
    fn end_clock(&mut self) {
        let Trips { clock, alone } = std::mem::take(&mut self.now);
        for (unit, causes) in alone.into_iter().enumerate() {
            for cause in causes {
                self.differ(clock);
                self.trips[unit].add((clock, cause));
            }
        }
    }

    /// The clock of the first pulse of the second that the first does not release.
    fn unreleased(&self) -> Option<u32> {
        self.pulses[1].first().map(|pulse| pulse.clock)
    }

    /// The units differ at this clock.
    fn differ(&mut self, clock: u32) {
        let (from, to) = self.between.unwrap_or((clock, clock));
        self.between = Some((from.min(clock), to.max(clock)));
    }

    /// Both units by their names and profiles.
    pub fn tell(
        mut self,
        [one, other]: [&str; 2],
        first: &Profile,
        second: &Profile,
        out: Out,
    ) -> Result<(), Failure> {
        self.end_clock();
        writeln!(out)?;
        self.tell_differences([one, other], out)?;
        writeln!(out)?;
        match second.looser_than(first) {
            None => {
                write!(out, "No limit of {other} is looser: ")?;
                writeln!(out, "of proved units demand 3 promises both of these.")?;
            }
            Some(looser) => {
                writeln!(out, "A limit of {other} is looser: {looser}.")?;
                writeln!(out, "So demand 3 promises neither of these.")?;
            }
        }
        writeln!(
            out,
            "- Each pulse of {other} is released by {one} too, same clock, channel, width, current:"
        )?;
        held(self.unreleased(), self.released, "pulses", out)?;
        writeln!(out, "- From the start, or from a call by which {other} leaves the tripped state, until just")?;
        writeln!(out, "  before it next trips, all answers and pulses are equal:")?;
        held(self.broken, self.together, "calls", out)
    }

    fn tell_differences(&self, names: [&str; 2], out: Out) -> Result<(), Failure> {
        let answers = counted(self.answers.count(), "answer");
        let pulses = counted(self.pulses.iter().map(Tally::count).sum(), "pulse");
        let trips = counted(self.trips.iter().map(Tally::count).sum(), "trip");
        write!(out, "Differences: {answers}, {pulses}, {trips}")?;
        match self.between {
            Some((from, to)) if from < to => writeln!(out, " (clock {from} to {to})")?,
            Some((clock, _)) => writeln!(out, " (clock {clock})")?,
            None => writeln!(out)?,
        }
        self.answers.tell("Answers that differ", |answers| answers.told(names), out)?;
        for (name, pulses) in names.iter().zip(&self.pulses) {
            pulses.tell(&format!("Pulses that only {name} releases"), told_pulse, out)?;
        }
        for (name, trips) in names.iter().zip(&self.trips) {
            let told = |(clock, cause): &(u32, Cause)| format!("clock {clock}: {cause}");
            trips.tell(&format!("Trips that only {name} has"), told, out)?;
        }
        Ok(())
    }
}

impl Answers {
    /// In words, the units by their names.
    fn told(&self, names: [&str; 2]) -> String {
        let call = match self.call {
            Call::Byte(byte) => format!("byte {}", hex::spelt(&[byte])),
            Call::Tick => "tick".to_owned(),
        };
        let answers = names.iter().zip(&self.told).map(|(name, told)| {
            let reply = told.reply.map(|reply| format!(", reply {}", hex::spelt(&[reply])));
            format!("{name} answers {}{}", told.answer.number(), reply.unwrap_or_default())
        });
        format!("clock {}, {call}: {}", self.clock, answers.collect::<Vec<String>>().join("; "))
    }
}

fn told_pulse(pulse: &Released) -> String {
    let Released { clock, channel, width, current } = pulse;
    format!("clock {clock}: channel {channel}, {width} µs, {current} mA")
}

fn without<'a>(one: &'a Told, other: &'a Told) -> impl Iterator<Item = Released> + 'a {
    one.released().filter(|pulse| other.released().all(|others| others != *pulse))
}

/// Whether a sentence held, or the clock of the call that broke it first.
fn held(broken: Option<u32>, count: u64, of: &str, out: Out) -> Result<(), Failure> {
    match broken {
        None => writeln!(out, "  held ({count} {of})")?,
        Some(clock) => writeln!(out, "  NOT HELD, first at clock {clock}")?,
    }
    Ok(())
}
