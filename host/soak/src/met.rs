//! What the trials came across.

use crate::packets::rehamove3::RehaMove3;
use crate::packets::rehastim2::RehaStim2;
use crate::packets::Counts;
use crate::sheets;
use crate::three::Call;
use std::collections::BTreeMap;
use yarrowbell::raw::{BoxRecord, Said};
use yarrowbell::Answer;

const RUNNING: u16 = 1;
const TRIPPED: u16 = 2;

const COMMANDS: [&str; 4] = ["Init", "Update", "Stop", "Single"];
const STATES: [&str; 3] = ["idle", "running", "tripped"];

pub(crate) const ANSWERS: usize = Answer::ALL.len();

/// The answers that each call on a box can be given.
const TO_MAKE: &[u8] = &[0, 11, 13];
const TO_BYTE: &[u8] = &[0, 1, 2, 3, 4, 5, 6, 7, 8, 9, 10, 12, 13, 14];
const TO_TICK: &[u8] = &[0, 12, 13, 14, 15];
const TO_READOUT: &[u8] = &[0, 12, 13, 14, 16];

/// The answers that each command can be given, by its Ident.
const TO_COMMANDS: [&[u8]; 4] =
    [&[0, 3, 4, 5, 9], &[0, 3, 4, 5, 6, 9, 10], &[0, 3], &[0, 3, 4, 7, 8, 9, 10]];

/// All that is counted.
#[derive(Clone, Debug, Default)]
pub struct Met {
    pub calls: u64,
    made: [u64; ANSWERS],
    bytes: [u64; ANSWERS],
    ticks: [u64; ANSWERS],
    readouts: [u64; ANSWERS],
    commands: [[u64; ANSWERS]; 4],
    lists: [u64; 9],
    updates: [u64; 9],
    states: [u64; 3],
    /// First, second and third pulses of a list's channel.
    pulses: [u64; 3],
    single_pulses: u64,
    silent_singles: u64,
    replaced_updates: u64,
    taken_over: u64,
    turns_skipped: u64,
    last_turns_skipped: u64,
    watchdog_trips: u64,
    late_updates: u64,
    dropped_frames: u64,
    wrapped: u64,
    drops: u64,
    full_rings: u64,
    largest_rings: u64,
    damaged: BTreeMap<&'static str, u64>,
    /// Of pairs: calls, trips of the tighter box, its ways back, pulses of both boxes and of the
    /// laxer one alone.
    pub pair_calls: u64,
    pub pair_trips: u64,
    pub pair_rejoinings: u64,
    pub pair_pulses: u64,
    pub pair_lax_pulses: u64,
    pub(crate) rehastim2: Counts,
    pub(crate) rehamove3: Counts,
    pub(crate) sheets: sheets::Counts,
}

impl Met {
    /// The calls of all trials.
    pub fn all_calls(&self) -> u64 {
        let packets = self.rehastim2.calls + self.rehamove3.calls;
        self.calls + self.pair_calls + packets + self.sheets.calls
    }

    pub fn made(&mut self, answer: u32) {
        self.calls += 1;
        self.made[answer as usize] += 1;
    }

    /// A call, with the box before and after it.
    pub fn call(&mut self, call: Call, before: &BoxRecord, said: &Said, after: &BoxRecord) {
        self.calls += 1;
        let answer = usize::from(said.answer);
        if !answered(said).refuses() {
            self.states[usize::from(after.core.state)] += 1;
            self.ring(before, after);
        }
        match call {
            Call::Byte(n) => {
                self.bytes[answer] += 1;
                self.byte(n, before, said, after);
            }
            Call::Tick => {
                self.ticks[answer] += 1;
                if said.answer == 0 && before.core.state == RUNNING {
                    self.running_tick(before, said, after);
                }
            }
            Call::Readout(_) => self.readouts[answer] += 1,
        }
    }

    /// A call on a record that had this field damaged.
    pub fn damaged(&mut self, field: &'static str, answer: u16) {
        let refused = self.damaged.entry(field).or_default();
        *refused += u64::from(answer == 12);
    }

    fn byte(&mut self, n: u8, before: &BoxRecord, said: &Said, after: &BoxRecord) {
        let high = n >= 0x80;
        let answer = answered(said);
        self.dropped_frames += u64::from(high && before.partial.len > 0 && !answer.refuses());
        if !answer.decides() {
            return;
        }
        let first = if high { n } else { before.partial.bytes[0] };
        let ident = usize::from(first >> 5 & 3);
        self.commands[ident][usize::from(said.answer)] += 1;
        let late = before.core.state == TRIPPED && ident == 1 && !high;
        self.late_updates += u64::from(late);
        let listed = after.core.run.list.stim.count_ones() as usize;
        match (ident, said.answer) {
            (0, 0) => self.lists[listed] += 1,
            (1, 0) => {
                self.updates[listed] += 1;
                self.replaced_updates += u64::from(before.core.run.waits);
            }
            (3, 0) if [said.a, said.b].iter().all(|pulse| pulse.channel == 0) => {
                self.silent_singles += 1;
            }
            (3, 0) => self.single_pulses += 1,
            _ => {}
        }
    }

    fn running_tick(&mut self, before: &BoxRecord, said: &Said, after: &BoxRecord) {
        let run = &after.core.run;
        if after.core.state == TRIPPED {
            self.watchdog_trips += 1;
            return;
        }
        self.taken_over += u64::from(before.core.run.waits - run.waits);
        let t2 = 5 * u16::from(run.list.group) + 15;
        let released = [said.a, said.b].iter().filter(|pulse| pulse.channel != 0).count();
        self.pulses[usize::from(run.position / t2).min(2)] += released as u64;
        let turn = (u64::from(run.cycle) + 1) % (u64::from(run.list.factor) + 1) == 0;
        if run.position == 0 && !turn {
            let lf = run.list.lf & run.list.stim;
            let silent = |channel: usize| {
                let set = run.settings[channel];
                lf >> channel & 1 == 1 && set.width > 0 && set.current > 0
            };
            self.turns_skipped += u64::from((0..8).any(silent));
            let first = run.list.stim.trailing_zeros() as usize;
            self.last_turns_skipped += u64::from(run.cycle == u32::MAX && silent(first));
        }
    }

    fn ring(&mut self, before: &BoxRecord, after: &BoxRecord) {
        let ring = &after.ring;
        if *ring != before.ring {
            self.drops += u64::from(ring.start != before.ring.start);
            self.wrapped += u64::from(ring.start + ring.used > ring.capacity);
            self.full_rings += u64::from(ring.used == ring.capacity);
            self.largest_rings += u64::from(ring.capacity == 4096);
        }
    }

    /// Everything that a long run of histories must meet, with how often it was met.
    pub fn of_histories(&self) -> Vec<(String, u64)> {
        let mut lines = Vec::new();
        let calls = [
            ("make", TO_MAKE, &self.made),
            ("byte", TO_BYTE, &self.bytes),
            ("tick", TO_TICK, &self.ticks),
            ("readout", TO_READOUT, &self.readouts),
        ];
        for (call, answers, counts) in calls {
            lines.extend(told(&format!("{call} answered"), answers, counts));
        }
        for ((command, answers), counts) in COMMANDS.iter().zip(TO_COMMANDS).zip(&self.commands) {
            lines.extend(told(&format!("{command} answered"), answers, counts));
        }
        for channels in 1..=8 {
            lines.push((format!("Init of {channels} channels"), self.lists[channels]));
            lines.push((format!("Update of {channels} channels"), self.updates[channels]));
        }
        for (state, count) in STATES.iter().zip(self.states) {
            lines.push((format!("state {state}"), count));
        }
        for (field, _) in crate::damage::FIELDS {
            let refused = self.damaged.get(field).copied().unwrap_or(0);
            lines.push((format!("{field} damaged and answered 12"), refused));
        }
        let others = [
            ("first pulses", self.pulses[0]),
            ("second pulses of a doublet or triplet", self.pulses[1]),
            ("third pulses of a triplet", self.pulses[2]),
            ("pulses of a Single", self.single_pulses),
            ("Singles without a pulse", self.silent_singles),
            ("waiting updates replaced", self.replaced_updates),
            ("waiting updates taken over", self.taken_over),
            ("cycles that low frequency channels skip", self.turns_skipped),
            ("turns skipped in the last cycle of all", self.last_turns_skipped),
            ("watchdog trips", self.watchdog_trips),
            ("Updates finished after a trip", self.late_updates),
            ("open frames dropped by a high byte", self.dropped_frames),
            ("rings wrapped", self.wrapped),
            ("old records dropped", self.drops),
            ("rings filled to the last byte", self.full_rings),
            ("records in a ring of 4096 bytes", self.largest_rings),
        ];
        lines.extend(others.map(|(what, count)| (what.to_owned(), count)));
        lines
    }

    /// The same of pairs.
    pub fn of_pairs(&self) -> Vec<(String, u64)> {
        let lines = [
            ("calls on pairs", self.pair_calls),
            ("trips of the tighter box", self.pair_trips),
            ("its ways back", self.pair_rejoinings),
            ("pulses of both boxes", self.pair_pulses),
            ("pulses of the laxer box alone", self.pair_lax_pulses),
        ];
        lines.map(|(what, count)| (what.to_owned(), count)).into()
    }

    /// The same of packets.
    pub fn of_packets(&self) -> Vec<(String, u64)> {
        [self.rehastim2.lines::<RehaStim2>(), self.rehamove3.lines::<RehaMove3>()].concat()
    }

    /// The same of sheets.
    pub fn of_sheets(&self) -> Vec<(String, u64)> {
        self.sheets.lines()
    }
}

/// The answer by its name.
pub(crate) fn answered(said: &Said) -> Answer {
    Answer::from_number(said.answer).expect("all boxes answer by the numbers of document 01")
}

/// What was answered by each of these numbers, with how often it was.
pub(crate) fn told(what: &str, answers: &[u8], counts: &[u64; ANSWERS]) -> Vec<(String, u64)> {
    let line = |&answer: &u8| (format!("{what} {answer}"), counts[usize::from(answer)]);
    answers.iter().map(line).collect()
}
