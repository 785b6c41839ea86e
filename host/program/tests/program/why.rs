//! Why a command is refused, from the independent codec and machine, in the program's words.

use independent::plain::machine::{BoxRecord, Profile};
use independent::{read, Bit, Command, Init, Layout, Setting, Variable, LAYOUTS};

/// The clock and the cause of a trip: 1 limit, 2 watchdog.
pub type Trip = (u32, u8);

/// All reasons for an answer to the command of a frame, whose last byte came to this box, which last
/// tripped so.
pub fn reasons(before: &BoxRecord, frame: &[u8], answer: u8, trip: Option<Trip>) -> Vec<String> {
    let list = &before.run.list;
    match answer {
        3 => vec![check(frame)],
        4 => not_good(frame, &channels(list.channel_stim)),
        5 => match command(frame) {
            Command::Init(init) => timing(&init),
            Command::Update(settings) => {
                let largest = settings.map(|setting| setting.mode).into_iter().max().expect("one");
                second_rule(list, u32::from(largest) + 1).into_iter().collect()
            }
            other => panic!("{other:?}"),
        },
        6 => vec!["no list runs".to_owned()],
        7 => vec![format!("a list runs, of {}", named(list.channel_stim))],
        8 => vec![hold(before, &command(frame))],
        9 => limits(before, &command(frame)),
        10 => vec![tripped(trip.expect("it has tripped"))],
        other => panic!("{other} is no refusal"),
    }
}

/// The timing rules that an Init breaks, by which every box refuses it: "both with n = 1".
pub fn timing(init: &Init) -> Vec<String> {
    let [a, b] = [0..4, 4..8]
        .map(|module| module.filter(|bit| init.channel_stim >> bit & 1 == 1).count() as u32);
    let (t2, most) = (t2(init), a.max(b));
    let which = match (a == most, b == most) {
        (true, true) => "each module",
        (true, false) => "module A",
        _ => "module B",
    };
    let least = 15 * most;
    let first =
        format!("t2 {t2} is below 15·{most} = {least} tenths of a ms: {most} channels in {which}");
    (t2 < least).then_some(first).into_iter().chain(second_rule(init, 1)).collect()
}

fn second_rule(list: &Init, n: u32) -> Option<String> {
    let (t1, t2) = (t1(list), t2(list));
    let least = n * t2 + 15;
    let broken = format!(
        "t1 {t1} is below {n}·{t2} + 15 = {least} tenths of a ms: n·t2 + 15, n the largest Mode plus 1"
    );
    (t1 < least).then_some(broken)
}

fn t1(list: &Init) -> u32 {
    5 * u32::from(list.main_time) + 10
}

fn t2(list: &Init) -> u32 {
    5 * u32::from(list.group_time) + 15
}

/// Channels by their bits, counted from 1.
pub fn channels(bits: u8) -> Vec<u8> {
    (1..=8).filter(|channel| bits >> (channel - 1) & 1 == 1).collect()
}

/// The same in words.
pub fn named(bits: u8) -> String {
    let spelt: Vec<String> = channels(bits).iter().map(u8::to_string).collect();
    let name = if spelt.len() == 1 { "channel" } else { "channels" };
    format!("{name} {}", spelt.join(", "))
}

/// The command of a good frame.
fn command(frame: &[u8]) -> Command {
    read(frame, (frame.len() - 1) / 3).expect("3 and 4 come before").command
}

fn hold(before: &BoxRecord, command: &Command) -> String {
    let Command::Single(single) = command else { panic!("{command:?}") };
    let (module, left) = match single.channel_number {
        0..=3 => ("A (channels 1 to 4)", before.hold_a),
        _ => ("B (channels 5 to 8)", before.hold_b),
    };
    let ticks = if left == 1 { "tick" } else { "ticks" };
    format!("module {module} is in a hold for {left} more {ticks} ({} ms)", ms(left.into()))
}

fn tripped((clock, cause): Trip) -> String {
    let cause = ["limit", "watchdog"][usize::from(cause) - 1];
    let since = format!("the box is tripped since clock {clock} ({} ms)", ms(clock));
    format!("{since}, cause: {cause}, and only Init and Stop lead out")
}

/// Tenths of a millisecond in milliseconds.
fn ms(tenths: u32) -> String {
    format!("{:.1}", f64::from(tenths) / 10.0)
}

/// All limits that a command is over.
fn limits(before: &BoxRecord, command: &Command) -> Vec<String> {
    let profile = &before.profile;
    match command {
        Command::Init(init) => {
            let (t1, shortest) = (t1(init), profile.shortest);
            let [is, least] = [t1, shortest].map(ms);
            vec![format!("t1 {t1} ({is} ms) is below the shortest t1 {shortest} ({least} ms)")]
        }
        Command::Update(settings) => {
            let settings = channels(before.run.list.channel_stim).into_iter().zip(settings);
            let of = |(channel, one): (u8, &Setting)| {
                over(profile, channel, one.pulse_width, one.pulse_current)
            };
            settings.flat_map(of).collect()
        }
        Command::Single(one) => {
            over(profile, one.channel_number + 1, one.pulse_width, one.pulse_current)
        }
        Command::Stop => panic!("a Stop is over no limit"),
    }
}

/// The limits that a pulse is over.
fn over(profile: &Profile, channel: u8, width: u16, current: u8) -> Vec<String> {
    let place = usize::from(channel) - 1;
    let (most_width, most_current) = (profile.widths[place], profile.currents[place]);
    let (charge, most_charge) = (u32::from(width) * u32::from(current), profile.charge);
    let mut over = Vec::new();
    if current > most_current {
        over.push(format!("{current} mA is above its limit of {most_current} mA"));
    }
    if width > most_width {
        over.push(format!("{width} µs is above its limit of {most_width} µs"));
    }
    if charge > most_charge {
        let work = format!("{current} mA · {width} µs = {charge} nC");
        over.push(format!("{work} is above the limit of {most_charge} nC"));
    }
    over.into_iter().map(|limit| format!("channel {channel}: {limit}")).collect()
}

/// A variable of a frame: the listed channel that it is for, counted from 1, or 0; and its number.
type Value = (usize, Variable, u16);

/// The variables of a frame by the papers' tables, whatever their values, in the frame's order.
fn values(frame: &[u8]) -> Vec<Value> {
    let mut values: Vec<Value> = Vec::new();
    for ((row, place), byte) in layout(frame).rows((frame.len() - 1) / 3).zip(frame) {
        for (bit, weight) in row.iter().zip([128, 64, 32, 16, 8, 4, 2, 1]) {
            let Bit::Of(variable, number) = *bit else { continue };
            let power = if byte / weight % 2 == 1 { 2u16.pow(number.into()) } else { 0 };
            match values.iter_mut().find(|(at, of, _)| (*at, *of) == (place, variable)) {
                Some((_, _, sum)) => *sum += power,
                None => values.push((place, variable, power)),
            }
        }
    }
    values
}

fn layout(frame: &[u8]) -> &'static Layout {
    &LAYOUTS[usize::from(frame[0] / 32 % 4)]
}

/// The check that a frame should have, and the one that it has.
fn check(frame: &[u8]) -> String {
    let (checks, others): (Vec<Value>, Vec<Value>) =
        values(frame).into_iter().partition(|(_, of, _)| *of == Variable::Check);
    let sum: u32 = others.iter().map(|(_, _, number)| u32::from(*number)).sum();
    let (is, (_, _, says)) = (sum % layout(frame).modulus, checks[0]);
    format!("the check is {is}, the frame says {says}")
}

fn not_good(frame: &[u8], listed: &[u8]) -> Vec<String> {
    let values = values(frame);
    let single = values.iter().find(|(_, of, _)| *of == Variable::ChannelNumber);
    let faults = values.iter().filter_map(|&(place, variable, number)| {
        let channel = match (place, single) {
            (0, None) => String::new(),
            (0, Some((_, _, number))) => format!("channel {}: ", number + 1),
            _ => format!("channel {}: ", listed[place - 1]),
        };
        Some(format!("{channel}{}", fault(variable, number)?))
    });
    faults.collect()
}

/// A number that is no good value.
fn fault(variable: Variable, number: u16) -> Option<String> {
    let (good, name, rule) = match variable {
        Variable::ChannelStim => (number != 0, "Channel_Stim", "a list has at least one channel"),
        Variable::GroupTime => {
            let rule = "Group_Time is 3 to 29 (t2 from 3.0 to 16.0 ms)";
            ((3..=29).contains(&number), "Group_Time", rule)
        }
        Variable::MainTime => {
            let rule = "Main_Time is 4 to 2045 (t1 from 3.0 to 1023.5 ms)";
            ((4..=2045).contains(&number), "Main_Time", rule)
        }
        Variable::Mode => (number <= 2, "Mode", "Mode is 0, 1 or 2"),
        Variable::PulseWidth => {
            let good = number == 0 || (10..=500).contains(&number);
            (good, "Pulse_Width", "a width is 0 or 10 to 500 µs")
        }
        _ => return None,
    };
    (!good).then(|| format!("{name} {number}: {rule}"))
}
