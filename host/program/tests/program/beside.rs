//! `replay --against`: two units beside each other.

use crate::folder::Folder;
use crate::independently::{played, text, toml, Call};
use crate::seeded::seeded;
use independent::plain::machine::Pulse;
use soak::sessions;

/// A strict unit that trips, is restarted and rejoins the lax one. Each Update but the first has 30
/// mA on channel 3, of which the strict profile allows 25.
const REJOINS: &str = "\
0 88 01 20 00 30 12
5 AC 01 48 28 22 2C 0F
120 BB 01 48 28 22 2C 1E
230 88 01 20 00 30 12
235 AC 01 48 28 22 2C 0F
350 end
";

#[test]
fn a_strict_unit_trips_and_rejoins() {
    let folder = Folder::new("a_strict_unit")
        .with("s", REJOINS)
        .with("strict.toml", "currents = [127, 127, 25, 127, 127, 127, 127, 127]");
    let ran = folder.line("replay s --against strict.toml --readout");
    let expected = "     clock          ms  the first                                   the second
         0         0.0  > 88 01 20 00 30 12  Init: channels 1, 3, t1 10.0 ms, t2 3.0 ms
                        answer 0: command carried out, reply 01     answer 0: command carried out, reply 01
         5         0.5  > AC 01 48 28 22 2C 0F  Update: channel 1 single pulse 200 µs 40 mA;
                            channel 3 doublet 300 µs 15 mA
                        answer 0: command carried out, reply 41     answer 0: command carried out, reply 41
       100        10.0  pulse on channel 1: 200 µs, 40 mA           pulse on channel 1: 200 µs, 40 mA
       115        11.5  pulse on channel 3: 300 µs, 15 mA           pulse on channel 3: 300 µs, 15 mA
       120        12.0  > BB 01 48 28 22 2C 1E  Update: channel 1 single pulse 200 µs 40 mA;
                            channel 3 doublet 300 µs 30 mA
                        answer 0: command carried out, reply 41     answer 9: over a limit, reply 40            differ
                                                                      channel 3: 30 mA is above its limit of
                                                                        25 mA
                                                                    TRIP, cause: limit                          differ
       145        14.5  pulse on channel 3: 300 µs, 15 mA                                                       differ
       200        20.0  pulse on channel 1: 200 µs, 40 mA                                                       differ
       215        21.5  pulse on channel 3: 300 µs, 30 mA                                                       differ
       230        23.0  > 88 01 20 00 30 12  Init: channels 1, 3, t1 10.0 ms, t2 3.0 ms
                        answer 0: command carried out, reply 01     answer 0: command carried out, reply 01
       235        23.5  > AC 01 48 28 22 2C 0F  Update: channel 1 single pulse 200 µs 40 mA;
                            channel 3 doublet 300 µs 15 mA
                        answer 0: command carried out, reply 41     answer 0: command carried out, reply 41
       330        33.0  pulse on channel 1: 200 µs, 40 mA           pulse on channel 1: 200 µs, 40 mA
       345        34.5  pulse on channel 3: 300 µs, 15 mA           pulse on channel 3: 300 µs, 15 mA

the first: running at clock 350; commands 5, pulses 7, trips 0
the second: running at clock 350; commands 5, pulses 4, trips 1

Differences: 1 answer, 3 pulses, 1 trip (clock 120 to 215)
Answers that differ: 1
  clock 120, byte 1E: the first answers 0, reply 41; the second answers 9, reply 40
Pulses that only the first releases: 3
  clock 145: channel 3, 300 µs, 15 mA
  clock 200: channel 1, 200 µs, 40 mA
  clock 215: channel 3, 300 µs, 30 mA
Pulses that only the second releases: 0
Trips that only the first has: 0
Trips that only the second has: 1
  clock 120: limit

No limit of the second is looser: of proved units demand 3 promises both of these.
- Each pulse of the second is released by the first too, same clock, channel, width, current:
  held (4 pulses)
- From the start, or from a call by which the second leaves the tripped state, until just
  before it next trips, all answers and pulses are equal:
  held (267 calls)
";
    let readouts = ran.out.strip_prefix(expected).unwrap_or_else(|| panic!("{}", ran.out));
    assert_eq!(readouts.lines().count(), 2);
    assert!(readouts.lines().all(|line| line.starts_with("01 00 00 00 00 00 00 01 05 ")));
    assert_eq!((ran.status, ran.err.as_str()), (0, ""));
}

/// The other way round the second unit's limits are looser, and it pulses where the first has
/// tripped.
#[test]
fn a_looser_unit_is_promised_nothing() {
    let folder = Folder::new("a_looser_unit")
        .with("s", REJOINS)
        .with("strict.toml", "currents = [127, 127, 25, 127, 127, 127, 127, 127]")
        .with("lax.toml", "");
    let ran = folder.line("replay s --profile strict.toml --against lax.toml");
    let report = ran.out.split("\n\n").last().expect("it prints a report");
    let expected = "\
A limit of the second is looser: the largest current of channel 3 is 127, the other's 25.
So demand 3 promises neither of these.
- Each pulse of the second is released by the first too, same clock, channel, width, current:
  NOT HELD, first at clock 145
- From the start, or from a call by which the second leaves the tripped state, until just
  before it next trips, all answers and pulses are equal:
  NOT HELD, first at clock 120
";
    assert_eq!(report, expected);
    assert_eq!(ran.status, 0);
}

/// The whole report on random sessions is what the independent machine makes it, whichever of the
/// two profiles is the tighter.
#[test]
fn random_pairs() {
    let folder = Folder::new("random_pairs");
    let [mut apart, mut broken, mut trips, mut long] = [0; 4];
    seeded(1_000..1_300, |rng| {
        let session = sessions::session(rng);
        let tighter = sessions::tighter(rng, session.profile);
        folder.put("s", text(&session, true));
        folder.put("lax.toml", toml(&session.profile));
        folder.put("strict.toml", toml(&tighter));
        let [lax, strict] = [session.profile, tighter].map(|profile| played(&session, profile).0);
        let report = |first: &str, second: &str| {
            let line = format!("replay s --capacity {} --profile {first} ", session.capacity);
            let ran = folder.line(&(line + "--against " + second));
            assert_eq!((ran.status, ran.err.as_str()), (0, ""));
            ran.out
        };
        let tight = expected(&lax, &strict, 20);
        assert!(!tight.contains("NOT HELD"), "{tight}");
        let promise = "No limit of the second is looser";
        assert_eq!(without_promise(&report("lax.toml", "strict.toml"), promise), tight);
        let promise = if tighter == session.profile { promise } else { "A limit of the second" };
        let loose = expected(&strict, &lax, usize::MAX);
        assert_eq!(without_promise(&report("strict.toml", "lax.toml --all"), promise), loose);
        apart += usize::from(!tight.contains("the first releases: 0\n"));
        broken += usize::from(loose.contains("NOT HELD"));
        trips += usize::from(!tight.contains(" 0 trips"));
        long += usize::from(tight.contains(" more (--all shows them)"));
    });
    let met = [apart, broken, trips, long];
    assert!(met.iter().all(|pairs| *pairs > 50), "{met:?} pairs show little");
}

/// The report behind the story, but for what it says of the profiles, which begins so.
fn without_promise(out: &str, promise: &str) -> String {
    let from = out.find("Differences: ").expect("a report");
    let (seen, judged) = out[from..].split_once("\n\n").expect("two parts");
    assert!(judged.starts_with(promise), "{judged}");
    let sentences = judged.find("- Each pulse").expect("demand 3's sentences");
    format!("{seen}\n{}", &judged[sentences..])
}

/// The report with lists of at most this length.
fn expected(first: &[Call], second: &[Call], most: usize) -> String {
    let differences = [
        answers(first, second),
        pulses(first, second),
        pulses(second, first),
        trips(first, second),
        trips(second, first),
    ];
    let counts = differences.each_ref().map(Vec::len);
    let counted = |count: usize, thing: &str| match count {
        1 => format!("1 {thing}"),
        more => format!("{more} {thing}s"),
    };
    let answers = counted(counts[0], "answer");
    let both = [counted(counts[1] + counts[2], "pulse"), counted(counts[3] + counts[4], "trip")];
    let mut report = format!("Differences: {answers}, {}", both.join(", "));
    let clocks = || differences.iter().flatten().map(|(clock, _)| *clock);
    report += &match (clocks().min(), clocks().max()) {
        (Some(from), Some(to)) if from < to => format!(" (clock {from} to {to})"),
        (Some(clock), _) => format!(" (clock {clock})"),
        _ => String::new(),
    };
    let heads = [
        "Answers that differ",
        "Pulses that only the first releases",
        "Pulses that only the second releases",
        "Trips that only the first has",
        "Trips that only the second has",
    ];
    for (head, list) in heads.iter().zip(&differences) {
        assert!(list.len() < 1_000, "larger numbers have commas");
        report += &format!("\n{head}: {}", list.len());
        for (clock, words) in list.iter().take(most) {
            report += &format!("\n  clock {clock}{words}");
        }
        if list.len() > most {
            report += &format!("\n  .. and {} more (--all shows them)", list.len() - most);
        }
    }
    let calls = || first.iter().zip(second);
    let differ = calls().filter(|(one, other)| one.said != other.said);
    let mut unequal = differ.filter(|(_, other)| !other.tripped).map(|(one, _)| one.clock);
    let only_second = &differences[2];
    let held = |broken: Option<u32>, count: usize, of: &str| match broken {
        None => format!("  held ({count} {of})\n"),
        Some(clock) => format!("  NOT HELD, first at clock {clock}\n"),
    };
    let pulses = second.iter().filter_map(Call::pulse).count();
    let together = second.iter().filter(|call| !call.tripped).count();
    report += "\n- Each pulse of the second is released by the first too, same clock, channel, ";
    report += "width, current:\n";
    report += &held(only_second.first().map(|(clock, _)| *clock), pulses, "pulses");
    report += "- From the start, or from a call by which the second leaves the tripped state, ";
    report += "until just\n  before it next trips, all answers and pulses are equal:\n";
    report + &held(unequal.next(), together, "calls")
}

/// Differences by their clocks, each in its words.
type Differences = Vec<(u32, String)>;

fn answers(first: &[Call], second: &[Call]) -> Differences {
    let said = |call: &Call| match call.said.answer {
        answer @ (1 | 2) => format!("answers {answer}"),
        answer => format!("answers {answer}, reply {:02X}", call.said.reply),
    };
    let both = first.iter().zip(second).filter_map(|(one, other)| {
        let byte = one.byte?;
        let differ = (one.said.answer, one.said.reply) != (other.said.answer, other.said.reply);
        let words =
            format!(", byte {byte:02X}: the first {}; the second {}", said(one), said(other));
        differ.then_some((one.clock, words))
    });
    both.collect()
}

/// The pulses of one unit that the other does not release.
fn pulses(one: &[Call], other: &[Call]) -> Differences {
    let alone = one.iter().zip(other).filter(|(one, other)| one.pulse() != other.pulse());
    let words = |Pulse { clock, channel, width, current }| {
        (clock, format!(": channel {channel}, {width} µs, {current} mA"))
    };
    alone.filter_map(|(one, _)| one.pulse()).map(words).collect()
}

/// The trips of one unit, without as many of the other as are equal.
fn trips(one: &[Call], other: &[Call]) -> Differences {
    let mut others = all_trips(other);
    let mut alone = all_trips(one);
    alone.retain(|trip| match others.iter().position(|other| other == trip) {
        Some(same) => {
            others.remove(same);
            false
        }
        None => true,
    });
    alone
}

/// Every answer 9 is a trip; a tick that leaves a box tripped which was not so before is one too.
fn all_trips(calls: &[Call]) -> Differences {
    let mut was = false;
    let trip = |call: &Call| {
        let watchdog = call.byte.is_none() && call.tripped && !was;
        was = call.tripped;
        match (call.said.answer, watchdog) {
            (9, _) => Some((call.clock, ": limit".to_owned())),
            (_, true) => Some((call.clock, ": watchdog".to_owned())),
            _ => None,
        }
    };
    calls.iter().filter_map(trip).collect()
}
