use super::*;
use rand::rngs::SmallRng;
use rand::{Rng, SeedableRng};
use soak::sessions::{self, Session};
use yarrowbell::{records, Guard, Told};

/// Plays a session on a unit with a ring of this capacity. Hands on what is said to each call, the
/// state in which it came, and the unit behind it.
fn play(session: &Session, capacity: usize, mut each: impl FnMut(Told, State, &Guard)) {
    let mut guard = Guard::new(session.profile, capacity).expect("both are good");
    let mut sent = session.sent.iter().peekable();
    loop {
        let state = guard.state();
        let byte = sent.next_if(|(clock, _)| *clock == guard.clock());
        let told = match byte {
            Some((_, byte)) => guard.byte(*byte),
            None if guard.clock() == session.end => break,
            None => guard.tick().expect("the clock is far from its end"),
        };
        each(told, state, &guard);
    }
}

/// No readout of a unit has a mark, after whatever calls, and however many records the ring has cut
/// off.
#[test]
fn no_unit_is_marked() {
    let mut cut = 0;
    for seed in 30_000..32_000 {
        let mut rng = SmallRng::seed_from_u64(seed);
        let session = sessions::session(&mut rng);
        let capacity = if rng.gen() { rng.gen_range(16..=40) } else { session.capacity };
        let mut all = 0;
        play(&session, capacity, |told, _, guard| {
            let new = [told.reply.is_some(), told.released().next().is_some(), told.trip.is_some()];
            all += new.iter().filter(|new| **new).count();
            if new.contains(&true) {
                let readout = guard.trace();
                let records = records(&readout).expect("a readout has whole records");
                for (record, marks) in records.iter().zip(of(&records)) {
                    assert!(marks.is_empty(), "{record:?} in {readout:02X?}: {marks:?}");
                }
                cut += usize::from(records.len() < all);
            }
        });
    }
    assert!(cut > 50_000, "{cut} readouts of full rings show little");
}

/// The answers that a command gets in a state are those that units give, all of them.
#[test]
fn the_answers_are_all_given() {
    let mut given = BTreeSet::new();
    for seed in 34_000..34_500 {
        let session = sessions::session(&mut SmallRng::seed_from_u64(seed));
        play(&session, 16, |told, state, _| {
            let place = STATES.iter().position(|known| *known == state);
            given.extend(told.reply.map(|reply| (reply >> 6, place, told.answer.number())));
        });
    }
    let table = (0..4).flat_map(|ident| (0..3).map(move |place| (ident, place)));
    let table = table.flat_map(|(ident, place)| {
        answers(ident, STATES[place]).iter().map(move |answer| (ident, Some(place), *answer))
    });
    assert_eq!(given, table.collect());
}
