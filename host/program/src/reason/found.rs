//! The reasons for an answer, by the rules of document 01.

use super::module::Module;
use super::Reason;
use crate::field::Field;
use crate::frame::given::{sum_and_check, Given, Value};
use crate::{channels, frame, times, words};
use yarrowbell::raw::{BoxRecord, Profile};
use yarrowbell::{Answer, Command, Init, Setting, Single};

/// The number of the tripped state in a box record.
const TRIPPED: u16 = 2;

/// All reasons for an answer to the command of these bytes, the last of which came to the box of
/// this record.
pub fn of(before: &BoxRecord, bytes: &[u8], answer: Answer) -> Vec<Reason> {
    let (name, command) = (words::name(bytes[0]), frame::command(bytes));
    let (core, list) = (&before.core, &before.core.run.list);
    let mut reasons = match (answer, name) {
        (Answer::WrongCheck, _) => check(bytes),
        (Answer::NotGood, _) => values(bytes, list.stim),
        (Answer::Timing, _) => timing(command, list),
        (Answer::NoList, "Update") if list.stim == 0 => vec![Reason::NoList],
        (Answer::ListRuns, "Single") => vec![Reason::ListRuns { listed: list.stim }],
        (Answer::InHold, _) => hold(command, before),
        (Answer::OverLimit, _) => limits(command, list.stim, &before.profile),
        (Answer::WhileTripped, "Update" | "Single") if core.state == TRIPPED => {
            vec![Reason::Tripped(None)]
        }
        _ => Vec::new(),
    };
    reasons.retain(Reason::holds);
    reasons
}

/// What is to be said of a frame that every unit refuses, in whatever state it is: an Init that
/// breaks a timing rule.
pub fn everywhere(bytes: &[u8]) -> Vec<String> {
    let reasons = match frame::command(bytes) {
        Some(Command::Init(init)) => of_list(&init),
        _ => Vec::new(),
    };
    let broken = reasons.iter().filter(|reason| reason.holds());
    let told = |reason: &Reason| {
        let answer = reason.answer().number();
        format!("every unit refuses this Init with answer {answer}: {reason}")
    };
    broken.map(told).collect()
}

/// The same in one note, if there is something to be said.
pub fn noted(bytes: &[u8]) -> Option<String> {
    Some(everywhere(bytes).join("; ")).filter(|note| !note.is_empty())
}

/// An Update of which the first byte is decided alone has no check yet.
fn check(bytes: &[u8]) -> Vec<Reason> {
    let given = Given::new(bytes, frame::entries(bytes));
    if !given.is_whole() {
        return Vec::new();
    }
    let (sum, says) = sum_and_check(&given.values(None, 0));
    vec![Reason::Check { is: sum % given.modulus(), says }]
}

/// The values of the frame's bits: the library hands none out of a frame that it does not read.
fn values(bytes: &[u8], listed: u8) -> Vec<Reason> {
    let values = Given::new(bytes, frame::entries(bytes)).values(None, 0);
    let number = values.iter().find(|value| value.field == Field::ChannelNumber);
    let single = number.map(|value| value.number as u8 + 1);
    let reason = |value: &Value| {
        let channel = match value.entry {
            0 => single,
            entry => channels::of(listed).nth(entry - 1),
        };
        Reason::Value { channel, field: value.field, value: value.number }
    };
    values.iter().map(reason).collect()
}

/// "Init applies both with n = 1, Update the second."
fn timing(command: Option<Command>, list: &Init) -> Vec<Reason> {
    match command {
        Some(Command::Init(init)) => of_list(&init),
        Some(Command::Update(settings)) => {
            let largest = settings.iter().map(|setting| setting.mode).max().unwrap_or(0);
            vec![second_rule(list, u32::from(largest) + 1)]
        }
        _ => Vec::new(),
    }
}

/// Both timing rules, for a list without settings.
fn of_list(list: &Init) -> Vec<Reason> {
    let t2 = times::t2(list.group.into());
    vec![Reason::T2 { t2, listed: list.stim }, second_rule(list, 1)]
}

fn second_rule(list: &Init, n: u32) -> Reason {
    Reason::T1 { t1: times::t1(list.main), t2: times::t2(list.group.into()), n }
}

fn hold(command: Option<Command>, before: &BoxRecord) -> Vec<Reason> {
    match command {
        Some(Command::Single(Single { channel, .. })) => {
            let module = Module::of(channel + 1);
            vec![Reason::Hold { module, left: module.hold(&before.core) }]
        }
        _ => Vec::new(),
    }
}

fn limits(command: Option<Command>, listed: u8, profile: &Profile) -> Vec<Reason> {
    match command {
        Some(Command::Init(init)) => {
            vec![Reason::Shortest { t1: times::t1(init.main), shortest: profile.shortest }]
        }
        Some(Command::Update(settings)) => {
            let pulses = channels::of(listed).zip(settings);
            let of = |(channel, Setting { width, current, .. })| {
                limits_of_pulse(channel, width, current, profile)
            };
            pulses.flat_map(of).collect()
        }
        Some(Command::Single(Single { channel, width, current })) => {
            limits_of_pulse(channel + 1, width, current, profile).into()
        }
        Some(Command::Stop) | None => Vec::new(),
    }
}

fn limits_of_pulse(channel: u8, width: u16, current: u8, profile: &Profile) -> [Reason; 3] {
    let place = usize::from(channel) - 1;
    [
        Reason::Current { channel, current, largest: profile.currents[place] },
        Reason::Width { channel, width, largest: profile.widths[place] },
        Reason::Charge { channel, current, width, largest: profile.charge },
    ]
}
