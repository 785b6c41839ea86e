//! `yarrowbell lesson limits`

use super::page::{Page, Theorem};
use super::{wrong, Drawn};
use crate::against::Against;
use crate::course::{Courses, Event};
use crate::failure::{Failure, Out};
use crate::session::Session;
use crate::story;
use crate::unit::{Call, Unit};
use yarrowbell::{Guard, Profile, Told};

const PAGE: Page = Page {
    title: "limits",
    mistake: "\
a strict unit keeps its old settings after answer 9, and pulses where the lax one has
fallen silent.",
    code: include_str!("wrong/limits.rs"),
    units: "\
The lax unit has the loosest profile. A strict one allows at most 300 µs on channel 3, and is as
the lax one in all else. One strict unit is wrong; the other is proved, as the lax one is.",
    input: "\
0 88 01 20 00 30 12       # Init of channels 1 and 3
5 BB 01 48 28 22 2C 1E    # Update, within the limits of both profiles
150 BC 01 48 00 03 74 00  # Update to 0 mA on both channels, with 500 µs on channel 3
250 end",
    seen: "\
Demand 3 is proved of proved units. The wrong strict one, beside the lax one, breaks its first
sentence: from clock 200 on it pulses by its old settings, where the lax one has the new ones and
is silent. The proved strict one has tripped at answer 9 and is silent too: the sentence holds.",
    source: "document 01",
    rule: "\
Update holds settings for eight channels by value, those not listed being zero. It is over a limit
if one channel's current, width or charge is.
| 9 | over a limit | box tripped |
Whenever the box is not running, list, settings, waiting update, position, cycle and watchdog
count are zero; a trip keeps holds and the partial frame.",
    proved: &[
        Theorem {
            name: "demand3",
            file: "crates/demands/proofs/Demand3.antt",
            says: "demand 3, for all bytes and ticks, where the second profile is nowhere looser.",
        },
        Theorem {
            name: "always_zeros",
            file: "crates/model/proofs/Theorems.antt",
            says: "whatever it was sent, a machine that does not run has no list and no settings.",
        },
        Theorem {
            name: "quiet_at_rest",
            file: "crates/model/proofs/Theorems.antt",
            says: "a machine that does not run releases nothing in a tick.",
        },
    ],
};

const LAX: Profile = Profile::LOOSEST;
const STRICT: Profile = Profile { widths: [500, 500, 300, 500, 500, 500, 500, 500], ..LAX };

struct Wrong(Guard);

impl Unit for Wrong {
    fn call(&mut self, call: Call) -> Told {
        wrong::limits::call(&mut self.0, call)
    }

    fn guard(&self) -> &Guard {
        &self.0
    }
}

pub fn teach(out: Out) -> Result<Drawn, Failure> {
    let session = PAGE.begin(out)?;
    let wrong = beside_lax("wrong strict", &mut Wrong(guard(STRICT)), &session, out)?;
    writeln!(out)?;
    let proved = beside_lax("proved strict", &mut guard(STRICT), &session, out)?;
    PAGE.end(out)?;
    Ok(Drawn::Courses {
        titles: [
            "wrong strict: it pulses where the lax unit is silent",
            "proved strict: it trips at answer 9",
        ],
        courses: Courses(vec![wrong, proved]),
        end: session.end(),
    })
}

/// Tells what a strict unit does beside the lax one, and whether demand 3 holds of the two.
fn beside_lax(
    name: &str,
    strict: &mut dyn Unit,
    session: &Session,
    out: Out,
) -> Result<Vec<Event>, Failure> {
    let mut against = Against::default();
    let mut courses = Courses::of(2);
    let names = ["lax", name];
    let each = |step| {
        against.step(&step);
        courses.add(step);
        Ok(())
    };
    story::tell(session, &names, &mut [&mut guard(LAX), strict], each, out)?;
    against.tell(names, &LAX, &STRICT, out)?;
    Ok(courses.0.remove(1))
}

fn guard(profile: Profile) -> Guard {
    Guard::new(profile, 4096).expect("profile and capacity are good")
}
