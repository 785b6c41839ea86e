//! Random histories: what must hold after every call is in `played`.

use crate::played::Played;
use crate::random::{self, seeded};
use crate::script::{calls, Call};

#[test]
fn all_stand() {
    let (mut answers, mut pulses, mut trips) = ([0; 11], 0, 0);
    seeded(0..1_500, |rng| {
        let profile = random::profile(rng);
        let mut played = Played::random(rng, profile);
        for _ in 0..60 {
            for call in calls(rng, &played.record) {
                let said = match call {
                    Call::Byte(byte) => {
                        let said = played.byte(byte);
                        answers[usize::from(said.answer)] += 1;
                        said
                    }
                    Call::Tick => {
                        let state = played.record.state;
                        let said = played.tick();
                        trips += u32::from(state != played.record.state);
                        said
                    }
                };
                pulses += u32::from(said.a.channel > 0) + u32::from(said.b.channel > 0);
            }
        }
    });
    println!("answers {answers:?}, {pulses} pulses, {trips} watchdog trips");
    assert!(answers.iter().all(|&count| count > 300), "{answers:?}");
    assert!(pulses > 10_000 && trips > 300, "{pulses} pulses, {trips} trips");
}
