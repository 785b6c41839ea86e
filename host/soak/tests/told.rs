//! What a guard tells of its calls, over random sessions: its trace holds just that, record by
//! record.

#[path = "../../tests/shared/held.rs"]
mod held;
#[path = "../../tests/shared/seeded.rs"]
mod seeded;

use held::held;
use independent::{tail, Record};
use seeded::seeded;
use soak::sessions::{session, Session};
use yarrowbell::{Cause, Guard, Released, State, Told};

#[test]
fn a_trace_holds_what_was_told() {
    let mut met = Met::default();
    seeded(3_000_000..3_000_200, |rng| {
        let session = session(rng);
        let guard = Guard::new(session.profile, session.capacity).expect("both are good");
        Played { guard, records: Vec::new(), met: &mut met }.play(&session);
    });
    let Met { pulses, watchdog, limit, again, dropped } = met;
    let least = [pulses, watchdog, limit, again, dropped].into_iter().min();
    assert!(least > Some(30), "{met:?}");
}

/// How often something was met.
#[derive(Debug, Default)]
struct Met {
    pulses: usize,
    watchdog: usize,
    limit: usize,
    /// Trips of a box that was tripped already.
    again: usize,
    /// Calls for which old records were dropped.
    dropped: usize,
}

/// A guard, and the records that its ring should hold.
struct Played<'a> {
    guard: Guard,
    records: Vec<Record>,
    met: &'a mut Met,
}

impl Played<'_> {
    fn play(&mut self, session: &Session) {
        for &(clock, byte) in &session.sent {
            self.tick_until(clock);
            self.call(|guard| guard.byte(byte));
        }
        self.tick_until(session.end);
    }

    fn tick_until(&mut self, clock: u32) {
        while self.guard.clock() < clock {
            self.call(|guard| guard.tick().expect("the clock is far from its end"));
        }
    }

    fn call(&mut self, call: impl FnOnce(&mut Guard) -> Told) {
        let was_tripped = self.guard.state() == State::Tripped;
        let told = call(&mut self.guard);
        let new = of_call(&told, self.guard.clock());
        if !new.is_empty() {
            self.push(&new);
        }
        let bytes: Vec<u8> = self.records.iter().flat_map(Record::bytes).collect();
        assert_eq!(self.guard.trace(), bytes);
        self.met.pulses += told.released().count();
        self.met.watchdog += usize::from(told.trip == Some(Cause::Watchdog));
        self.met.limit += usize::from(told.trip == Some(Cause::Limit));
        self.met.again += usize::from(told.trip.is_some() && was_tripped);
    }

    /// The ring should now hold these too.
    fn push(&mut self, new: &[Record]) {
        let all = [&self.records, new].concat();
        let capacity = self.guard.record().ring.capacity as usize;
        self.records = tail(&all, capacity).to_vec();
        self.met.dropped += usize::from(self.records.len() < all.len());
        held(&self.guard.trace(), &self.records);
    }
}

/// The records of a call, after which the clock is this. "Within a call the 01 stands first."
fn of_call(told: &Told, clock: u32) -> Vec<Record> {
    // "Ident in bits 7,6".
    let ident = |reply: u8| reply / 64;
    let answer = told.answer.number();
    let answer = told.reply.map(|reply| Record::Answer { clock, ident: ident(reply), answer });
    let pulse = |Released { clock, width, channel, current }| Record::Pulse {
        clock,
        channel,
        width,
        current,
    };
    let trip = told.trip.map(|cause| Record::Trip { clock, cause: cause.number() });
    answer.into_iter().chain(told.released().map(pulse)).chain(trip).collect()
}
