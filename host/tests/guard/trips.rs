//! Which calls are told to have tripped the box, and why.

use crate::sent::{self, begun, last, INIT, UPDATE};
use yarrowbell::{
    records, write, Answer, Body, Cause, Command, Guard, Init, Profile, Record, Setting, Single,
    State, Told,
};

/// Case 12: "a trip at 255", with the watchdog as its cause, and no other.
#[test]
fn the_watchdog() {
    let mut guard = begun(4096);
    for clock in 6..=5_000 {
        let told = guard.tick().expect("the clock is far from its end");
        let expected = (clock == 255).then_some(Cause::Watchdog);
        assert_eq!(told.trip, expected, "clock {clock}");
        assert_eq!(told.answer, Answer::Done);
    }
    assert_eq!(trips(&guard), [(255, Cause::Watchdog)]);
}

/// An Init of channel 1 with a t1 of 105.
const ALLOWED_INIT: Command = init(19);

/// Over a limit of the guards here: one with a t1 of 100.
const SHORT_INIT: Command = init(18);

/// Over another one: channel 1 set to 40 mA.
const STRONG_UPDATE: Command = Command::Update({
    let mut settings = [Setting { width: 0, mode: 0, current: 0 }; 8];
    settings[0] = Setting { width: 200, mode: 0, current: 40 };
    settings
});

/// The same by a Single.
const STRONG_SINGLE: Command = Command::Single(Single { width: 200, channel: 0, current: 40 });

const fn init(main: u16) -> Command {
    Command::Init(Init { factor: 0, stim: 1, lf: 0, group: 3, main })
}

/// A guard in this state that allows a t1 of 101 or more, and 39 mA or less on channel 1.
fn limited(state: State) -> Guard {
    let mut profile = Profile { shortest: 101, ..Profile::LOOSEST };
    profile.currents[0] = 39;
    let mut guard = Guard::new(profile, 4096).expect("profile and capacity are good");
    match state {
        State::Idle => (),
        State::Running => assert_eq!(decided(&mut guard, &ALLOWED_INIT), (0, None)),
        State::Tripped => assert_eq!(decided(&mut guard, &SHORT_INIT), TRIP),
    }
    assert_eq!(guard.state(), state);
    guard
}

/// What a command over a limit is answered by, and the trip that it is told to be.
const TRIP: (u8, Option<Cause>) = (9, Some(Cause::Limit));

/// Sends a command for a list of one channel. Hands back the number that it is answered by, and the
/// trip that it is told to be; no other byte is told to be one.
fn decided(guard: &mut Guard, command: &Command) -> (u8, Option<Cause>) {
    let mut frame = [0; 25];
    let used = write(command, 1, &mut frame).expect("the command is good");
    let told = sent::all(guard, &frame[..used]);
    let (decided, others): (Vec<&Told>, Vec<&Told>) =
        told.iter().partition(|told| told.reply.is_some());
    assert!(others.iter().all(|told| told.trip.is_none()), "{command:?}");
    let [decided] = decided[..] else { panic!("{command:?} was decided {} times", decided.len()) };
    (decided.answer.number(), decided.trip)
}

/// The trips in the trace.
fn trips(guard: &Guard) -> Vec<(u32, Cause)> {
    let records = records(&guard.trace()).expect("a trace is a readout");
    let trip = |record: &Record| match record.body {
        Body::Trip { cause } => {
            Some((record.clock, Cause::from_number(cause).expect("a cause is 1 or 2")))
        }
        _ => None,
    };
    records.iter().filter_map(trip).collect()
}

/// Every answer 9 is a trip, in a box that is tripped already too; no other answer is.
#[test]
fn commands_over_a_limit_in_each_state() {
    for (state, answers) in [
        (State::Idle, [TRIP, (6, None), TRIP]),
        (State::Running, [TRIP, TRIP, (7, None)]),
        (State::Tripped, [TRIP, (10, None), (10, None)]),
    ] {
        for (command, expected) in [SHORT_INIT, STRONG_UPDATE, STRONG_SINGLE].iter().zip(answers) {
            let mut guard = limited(state);
            let before = trips(&guard);
            assert_eq!(decided(&mut guard, command), expected, "{command:?} while {state}");
            let now = expected.1.map(|cause| (0, cause));
            assert_eq!(trips(&guard), [before, now.into_iter().collect()].concat());
            assert_eq!(guard.state(), if now.is_some() { State::Tripped } else { state });
        }
    }
}

/// In and out of trips.
#[test]
fn tripped_again_and_again() {
    let mut guard = limited(State::Tripped);
    for (command, expected) in [
        (SHORT_INIT, TRIP),
        (ALLOWED_INIT, (0, None)),
        (STRONG_UPDATE, TRIP),
        (Command::Stop, (0, None)),
        // In the hold of the Stop.
        (STRONG_SINGLE, (8, None)),
        (SHORT_INIT, TRIP),
        (Command::Stop, (0, None)),
    ] {
        assert_eq!(decided(&mut guard, &command), expected, "{command:?}");
    }
    assert_eq!(trips(&guard), [(0, Cause::Limit); 4]);
}

/// An Update that a trip of the watchdog has left open still finishes, and is no trip.
#[test]
fn an_update_left_open() {
    let profile = Profile { watchdog: 1, ..Profile::LOOSEST };
    let mut guard = Guard::new(profile, 64).expect("profile and capacity are good");
    assert_eq!(last(&mut guard, &INIT).trip, None);
    assert_eq!(last(&mut guard, &UPDATE[..3]).trip, None);
    let told = guard.tick().expect("the clock is far from its end");
    assert_eq!((told.answer, told.trip), (Answer::Done, Some(Cause::Watchdog)));
    let told = last(&mut guard, &UPDATE[3..]);
    assert_eq!((told.answer, told.trip), (Answer::WhileTripped, None));
    assert_eq!(trips(&guard), [(1, Cause::Watchdog)]);
}
