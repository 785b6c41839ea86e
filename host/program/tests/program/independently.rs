//! Random sessions: their files, and what the independent machine makes of them.

use independent::plain::machine::{BoxRecord, Pulse, Said};
use independent::Part;
use soak::sessions::{self, Session};
use yarrowbell::Profile;

/// The states by their numbers.
const STATES: [&str; 3] = ["idle", "running", "tripped"];

/// The number of the tripped state.
const TRIPPED: u16 = 2;

/// The session file, with the bytes of one clock in one line or each in its own.
pub fn text(session: &Session, together: bool) -> String {
    let mut lines: Vec<String> = Vec::new();
    let mut last = None;
    for (clock, byte) in &session.sent {
        match lines.last_mut() {
            Some(line) if together && last == Some(clock) => *line += &format!(" {byte:02x}"),
            _ => lines.push(format!("{clock} {byte:02X}")),
        }
        last = Some(clock);
    }
    lines.push(format!("{} end\n", session.end));
    lines.join("\n")
}

/// The file of a profile.
pub fn toml(profile: &Profile) -> String {
    let Profile { currents, widths, charge, shortest, watchdog } = profile;
    format!(
        "currents = {currents:?}\nwidths = {widths:?}\ncharge = {charge}\n\
         shortest_t1 = {shortest}\nwatchdog = {watchdog}\n"
    )
}

/// A call: the box before it, the clock after it, the byte if it is one, what is said to it, the
/// state that it leaves, whether that is tripped, and the number of the cause if it made the box
/// trip.
pub struct Call {
    pub before: BoxRecord,
    pub clock: u32,
    pub byte: Option<u8>,
    pub said: Said,
    pub state: &'static str,
    pub tripped: bool,
    pub trip: Option<u8>,
}

impl Call {
    /// The pulse that it releases.
    pub fn pulse(&self) -> Option<Pulse> {
        match [self.said.a, self.said.b].map(|pulse| (pulse.channel != 0).then_some(pulse)) {
            [Some(a), Some(b)] => panic!("two pulses in one call: {a:?}, {b:?}"),
            [a, b] => a.or(b),
        }
    }

    /// Of a box that was so before.
    fn of(before: BoxRecord, byte: Option<u8>, said: Said, left: &BoxRecord) -> Call {
        let (state, tripped) = (STATES[usize::from(left.state)], left.state == TRIPPED);
        let trip = match (said.answer, byte) {
            (9, _) => Some(1),
            (_, None) if tripped && before.state != TRIPPED => Some(2),
            _ => None,
        };
        Call { before, clock: left.clock, byte, said, state, tripped, trip }
    }
}

/// All calls of the session on a box of this profile, and the readout after them.
pub fn played(session: &Session, profile: Profile) -> (Vec<Call>, Vec<u8>) {
    let profile = sessions::profile(profile);
    let mut unit = BoxRecord::new(profile, session.capacity).expect("both are good");
    let mut ring = vec![0; session.capacity];
    let at = Part { offset: 0, size: session.capacity };
    let mut sent = session.sent.iter().peekable();
    let mut calls = Vec::new();
    loop {
        while let Some(&(_, byte)) = sent.next_if(|(clock, _)| *clock == unit.clock) {
            let before = unit;
            let said = unit.byte(&mut ring, at, byte);
            calls.push(Call::of(before, Some(byte), said, &unit));
        }
        if unit.clock == session.end {
            break;
        }
        let before = unit;
        let said = unit.tick(&mut ring, at);
        calls.push(Call::of(before, None, said, &unit));
    }
    let mut out = vec![0; session.capacity];
    let used = unit.read_out(&ring, at, &mut out).expect("it has room");
    out.truncate(used);
    (calls, out)
}
