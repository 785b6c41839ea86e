//! What no unit writes, by document 01. Whatever is sent to a unit, and wherever its ring has cut off
//! what came before, none of its readouts has a mark.

use crate::words;
use std::collections::BTreeSet;
use yarrowbell::{Answer, Body, Cause, Record, State};

const INIT: u8 = 0;
const UPDATE: u8 = 1;
const STOP: u8 = 2;
const SINGLE: u8 = 3;

const DONE: u8 = Answer::Done as u8;
const OVER_LIMIT: u8 = Answer::OverLimit as u8;

const STATES: [State; 3] = [State::Idle, State::Running, State::Tripped];

/// For each record the rules that it breaks.
pub fn of(records: &[Record]) -> Vec<Vec<String>> {
    let (mut before, mut state) = (None, None);
    let nexts = records.iter().skip(1).copied().map(Some).chain([None]);
    let marks = records.iter().zip(nexts).map(|(record, next)| {
        let place = Place { clock: record.clock, before, next, state };
        before = Some(*record);
        state = left_by(record.body).or(state);
        place.broken(record.body)
    });
    marks.collect()
}

/// The state in which a record leaves a unit, if it tells.
fn left_by(body: Body) -> Option<State> {
    match body {
        Body::Answer { ident: INIT, answer: DONE } => Some(State::Running),
        Body::Answer { ident: STOP, answer: DONE } => Some(State::Idle),
        Body::Trip { .. } => Some(State::Tripped),
        _ => None,
    }
}

/// The answers that a command gets in a state.
fn answers(ident: u8, state: State) -> &'static [u8] {
    match (ident, state) {
        (INIT, _) => &[0, 3, 4, 5, 9],
        (STOP, _) => &[0, 3],
        // Its first byte alone is answered.
        (UPDATE, State::Idle) => &[6],
        (UPDATE, State::Running) => &[0, 3, 4, 5, 9],
        (SINGLE, State::Idle) => &[0, 3, 4, 8, 9],
        (SINGLE, State::Running) => &[3, 4, 7],
        // An Update that the watchdog's trip left open still finishes.
        (UPDATE | SINGLE, State::Tripped) => &[3, 10],
        _ => &[],
    }
}

/// Where a record stands. A unit's bytes come behind the tick of their clock, each call's records
/// stand together, and no tick releases two pulses: the slots of module B are 1 more than multiples
/// of 5, those of module A and t2 are such multiples.
struct Place {
    clock: u32,
    /// The record before it, unless it is the oldest that the ring holds.
    before: Option<Record>,
    next: Option<Record>,
    /// The unit's state, if a record before it tells.
    state: Option<State>,
}

impl Place {
    fn broken(&self, body: Body) -> Vec<String> {
        let broken = match body {
            Body::Answer { ident, answer } => self.by_answer(ident, answer),
            Body::Pulse { channel, width, current } => self.by_pulse(channel, width, current),
            Body::Trip { cause } => self.by_trip(cause),
        };
        broken.into_iter().chain([self.falls()]).flatten().collect()
    }

    fn falls(&self) -> Option<String> {
        let before = self.before?.clock;
        unless(before <= self.clock, format_args!("the clock does not fall, and it was {before}"))
    }

    fn by_answer(&self, ident: u8, answer: u8) -> Vec<Option<String>> {
        let decides = Answer::from_number(answer).is_some_and(Answer::decides);
        let trips = |next| next == Body::Trip { cause: Cause::Limit.number() };
        vec![
            unless(ident <= SINGLE, "Ident is 0 to 3"),
            unless(decides, "an answer is 0 or 3 to 10"),
            if ident <= SINGLE && decides { self.not_gotten(ident, answer) } else { None },
            unless(
                answer != OVER_LIMIT || self.is(self.next, trips),
                "directly behind an answer 9 a unit trips by a limit, at the same clock",
            ),
        ]
    }

    /// That the command gets other answers, ever or in the state that is known.
    fn not_gotten(&self, ident: u8, answer: u8) -> Option<String> {
        let gets = |state: &State| answers(ident, *state).contains(&answer);
        let (states, when) = match self.state {
            _ if !STATES.iter().any(gets) => (STATES.to_vec(), String::new()),
            Some(state) if !gets(&state) => (vec![state], format!(" while {state}")),
            _ => return None,
        };
        let answers = states.iter().flat_map(|state| answers(ident, *state));
        let answers = listed(&answers.collect::<BTreeSet<&u8>>());
        Some(format!("{} is answered by {answers}{when}", words::COMMANDS[usize::from(ident)]))
    }

    fn by_pulse(&self, channel: u8, width: u16, current: u8) -> Vec<Option<String>> {
        let answered = |before| before == Body::Answer { ident: SINGLE, answer: DONE };
        let singles = self.is(self.before, answered);
        vec![
            unless((1..=8).contains(&channel), "a channel is 1 to 8"),
            unless((10..=500).contains(&width), "a pulse's width is 10 to 500 µs"),
            unless((1..=127).contains(&current), "a pulse's current is 1 to 127 mA"),
            unless(
                singles || self.is_first(),
                "a list's pulse is the first record of its clock, and a Single's stands directly \
                 behind its answer 0",
            ),
            unless(
                singles || self.state != Some(State::Idle),
                "a pulse stands directly behind a Single's answer 0 while idle",
            ),
            unless(self.state != Some(State::Tripped), "no pulse is released while tripped"),
        ]
    }

    fn by_trip(&self, cause: u8) -> Vec<Option<String>> {
        let over = |before| matches!(before, Body::Answer { answer: OVER_LIMIT, .. });
        match Cause::from_number(cause) {
            Some(Cause::Limit) => vec![unless(
                self.before.is_none() || self.is(self.before, over),
                "a unit trips by a limit directly behind an answer 9, at the same clock",
            )],
            Some(Cause::Watchdog) => vec![
                unless(
                    self.is_first() && self.clock > 0,
                    "a trip by the watchdog is the first record of its clock, and not of clock 0",
                ),
                unless(
                    self.state.is_none_or(|state| state == State::Running),
                    "the watchdog trips a unit while running",
                ),
            ],
            None => vec![unless(false, "a cause is 1 or 2")],
        }
    }

    /// Whether this may be the first record of its clock.
    fn is_first(&self) -> bool {
        !self.is(self.before, |_| true)
    }

    /// Whether a record beside it is of the same clock and has such a body.
    fn is(&self, beside: Option<Record>, such: impl Fn(Body) -> bool) -> bool {
        beside.is_some_and(|beside| beside.clock == self.clock && such(beside.body))
    }
}

fn unless(kept: bool, rule: impl ToString) -> Option<String> {
    (!kept).then(|| rule.to_string())
}

/// The numbers in their order, as 0, 3 or 10.
fn listed(numbers: &BTreeSet<&u8>) -> String {
    let numbers: Vec<String> = numbers.iter().map(ToString::to_string).collect();
    match &numbers[..] {
        [front @ .., last] if !front.is_empty() => format!("{} or {last}", front.join(", ")),
        _ => numbers.concat(),
    }
}

#[cfg(test)]
mod tests;
