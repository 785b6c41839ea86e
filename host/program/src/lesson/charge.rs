//! `yarrowbell lesson charge`

use super::page::{Page, Theorem};
use super::wrong;
use crate::failure::{Failure, Out};
use crate::input;
use crate::packet::rehamove3::{amounts, point};
use crate::picture::pulse::Panel;
use yarrowbell::rehamove3::{write, ChannelConfig, Command, Point, Pulse, LONGEST_WRITTEN};

const PAGE: Page = Page {
    title: "charge",
    mistake: "a pulse is called balanced because its currents are, and leaves charge behind.",
    code: include_str!("wrong/charge.rs"),
    units: "\
Three pulses of the RehaMove3, point by point: microseconds and milliamps. The wrong test judges
them, and the proved library weighs them and writes them, or does not.",
    input: "\
250:20 100:0 200:-20      # as strong one way as the other
250:20 100:0 250:-20      # source 002's example
250:20 2000:-2.5          # strong one way, weak the other",
    seen: "\
The first pulse looks balanced and is not: its second current flows 50 µs less, and 1,000 nC stay
behind. At 50 pulses in a second that is a direct current of 50 µA. Charge that stays behind drives
chemistry where the electrode meets the skin: it irritates the skin and can burn it, and it corrodes
the electrode. The third pulse looks wrong and is not: an eighth of the current flows eight times as
long.",
    source: "document 02",
    rule: "\
Report the net charge of a pulse as a signed sum in half milliamp microseconds over its 1 to 16
points, and refuse to write one whose net charge is not zero, also with 4.",
    proved: &[
        Theorem {
            name: "no_charge",
            file: "crates/demands3/proofs/NoCharge.antt",
            says: "whatever is written has no net charge; a pulse that has one is answered 4.",
        },
        Theorem {
            name: "bounded",
            file: "crates/charge/proofs/Theorems.antt",
            says: "32 bits hold every net charge, so that none becomes zero by overflow.",
        },
        Theorem {
            name: "order_free",
            file: "crates/charge/proofs/Theorems.antt",
            says: "the same points in another order have the same net charge.",
        },
    ],
};

/// What stands above the first two pulses.
const TITLES: [&str; 2] = [
    "wrong: it looks balanced, and each pulse leaves 1,000 nC behind",
    "proved: what flows one way flows back",
];

/// Tells what the wrong test and the library say of each pulse, and hands back the first two to be
/// drawn.
pub fn teach(out: Out) -> Result<Vec<Panel>, Failure> {
    PAGE.open("pulses", out)?;
    line(["pulse", "by the wrong test", "net charge", "by the library"], out)?;
    let mut drawn = Vec::new();
    for (words, pulse) in pulses() {
        let net = pulse.charge().expect("the lesson's own points are good");
        let config = ChannelConfig { execution: true, channel: 0, pulse };
        let written = write(0, &Command::LlChannelConfig(config), &mut [0; LONGEST_WRITTEN]);
        let wrong = match wrong::charge::is_balanced(pulse.points()) {
            true => "balanced",
            false => "not balanced",
        };
        let library = match written {
            Ok(_) => "written".to_owned(),
            Err(why) => format!("refused, answer {}", why.answer().number()),
        };
        line([&words, wrong, &amounts::charge(net), &library], out)?;
        drawn.push((net, pulse));
    }
    PAGE.end(out)?;
    let panel = |(title, (net, pulse)): (&str, (i32, Pulse))| Panel {
        title: title.to_owned(),
        points: pulse.points().to_vec(),
        net,
    };
    Ok(TITLES.into_iter().zip(drawn).map(panel).collect())
}

/// The lesson's pulses, as they are spelt.
fn pulses() -> impl Iterator<Item = (String, Pulse)> {
    input::lines(PAGE.input).map(|(_, words)| {
        let points: Result<Vec<Point>, _> = words.iter().map(|word| point::parsed(word)).collect();
        let points = points.expect("the lesson's own points are spelt as points");
        (words.join(" "), Pulse::new(&points).expect("a pulse has 1 to 16 points"))
    })
}

fn line([pulse, wrong, net, library]: [&str; 4], out: Out) -> Result<(), Failure> {
    Ok(writeln!(out, "{pulse:24}{wrong:20}{net:32}{library}")?)
}
