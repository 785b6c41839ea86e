//! The words of refusals.

use yarrowbell::{Answer, Guard, Profile, Refusal};

fn refused(change: impl Fn(&mut Profile)) -> String {
    let mut profile = Profile::LOOSEST;
    change(&mut profile);
    let refusal = Guard::new(profile, 64).expect_err("the profile is not good");
    assert_eq!(refusal.answer(), Answer::ProfileNotGood);
    refusal.to_string()
}

#[test]
fn profiles() {
    let words = [
        (
            refused(|profile| profile.currents[7] = 128),
            "the largest current of channel 8 is 128, more than 127",
        ),
        (
            refused(|profile| profile.widths[2] = 501),
            "the largest width of channel 3 is 501, more than 500",
        ),
        (
            refused(|profile| profile.charge = 63_501),
            "the largest charge is 63501, more than 63500",
        ),
        (refused(|profile| profile.shortest = 29), "the shortest t1 is 29, less than 30"),
        (refused(|profile| profile.shortest = 10_236), "the shortest t1 is 10236, more than 10235"),
        (refused(|profile| profile.watchdog = 0), "the watchdog is 0, less than 1"),
        (refused(|profile| profile.watchdog = 600_001), "the watchdog is 600001, more than 600000"),
    ];
    for (found, expected) in words {
        assert_eq!(found, format!("answer 11: {expected}: profile not good"));
    }
}

/// 11 is tested before 13.
#[test]
fn a_profile_before_its_ring() {
    let profile = Profile { watchdog: 0, ..Profile::LOOSEST };
    let refusal = Guard::new(profile, 15).expect_err("the profile is not good");
    assert_eq!(refusal.answer(), Answer::ProfileNotGood);
}

#[test]
fn capacities() {
    for capacity in [0, 15, 4_097, usize::MAX] {
        let refusal = Guard::new(Profile::LOOSEST, capacity).expect_err("the capacity is not good");
        let ring = format!("a ring of {capacity} bytes, where 16 to 4096 are good");
        let words = "ring part outside the lent buffer, or its size not the box's capacity";
        assert_eq!(refusal.to_string(), format!("answer 13: {ring}: {words}"));
        assert_eq!(refusal.answer(), Answer::RingOutside);
    }
}

#[test]
fn outputs() {
    let mut guard = Guard::new(Profile::LOOSEST, 64).expect("profile and capacity are good");
    guard.byte(0xC0);
    let mut out = [0xAA; 6];
    let refusal = guard.readout(&mut out).expect_err("the trace has 7 bytes");
    let words = "answer 16: an output of 6 bytes for a trace of 7: output too short";
    assert_eq!(refusal.to_string(), words);
    assert_eq!(refusal.answer(), Answer::OutputTooShort);
    assert_eq!(out, [0xAA; 6]);
}

#[test]
fn the_clock() {
    let words = "answer 15: a tick at clock 4294967295: clock at its end";
    assert_eq!(Refusal::Tick.to_string(), words);
    assert_eq!(Refusal::Tick.answer(), Answer::ClockAtEnd);
}
