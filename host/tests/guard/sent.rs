//! Bytes sent to a guard.

use yarrowbell::{Answer, Guard, Profile, Told};

/// Document 01's case 5: an Init of channels 1 and 3.
pub const INIT: [u8; 6] = [0x88, 0x01, 0x20, 0x00, 0x30, 0x12];

/// Case 6: an Update of their settings.
pub const UPDATE: [u8; 7] = [0xBB, 0x01, 0x48, 0x28, 0x22, 0x2C, 0x1E];

/// What the guard tells of each byte.
pub fn all(guard: &mut Guard, bytes: &[u8]) -> Vec<Told> {
    bytes.iter().map(|&byte| guard.byte(byte)).collect()
}

/// What it tells of the last one.
pub fn last(guard: &mut Guard, bytes: &[u8]) -> Told {
    *all(guard, bytes).last().expect("there is a byte")
}

/// The Init at clock 0 and the Update at clock 5, with a watchdog of 250: the start of case 12.
pub fn begun(capacity: usize) -> Guard {
    let profile = Profile { watchdog: 250, ..Profile::LOOSEST };
    let mut guard = Guard::new(profile, capacity).expect("profile and capacity are good");
    let carried_out = |told: Told, reply| {
        assert_eq!((told.answer, told.reply), (Answer::Done, Some(reply)));
    };
    carried_out(last(&mut guard, &INIT), 0x01);
    for _ in 0..5 {
        let told = guard.tick().expect("the clock is far from its end");
        assert_eq!(told.released().count(), 0);
    }
    carried_out(last(&mut guard, &UPDATE), 0x41);
    guard
}
