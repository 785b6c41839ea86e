//! Which bytes are replied to, and where a pulse stands.

use crate::sent::last;
use yarrowbell::{Answer, Guard, Profile, Released};

/// A refused Init has the reply 00, which is not the same as none.
#[test]
fn a_refused_init_is_replied_to() {
    let mut guard = Guard::new(Profile::LOOSEST, 64).expect("profile and capacity are good");
    let told = last(&mut guard, &[0x8C, 0x01, 0x20, 0x00, 0x30, 0x12]);
    assert_eq!((told.answer, told.reply), (Answer::WrongCheck, Some(0x00)));
    let told = last(&mut guard, &[0x88]);
    assert_eq!((told.answer, told.reply), (Answer::Unfinished, None));
    let told = last(&mut guard, &[0xC0, 0x00]);
    assert_eq!((told.answer, told.reply), (Answer::LowByte, None));
}

#[test]
fn a_pulse_stands_in_its_modules_place() {
    let mut guard = Guard::new(Profile::LOOSEST, 64).expect("profile and capacity are good");
    let told = last(&mut guard, &[0xE2, 0x21, 0x48, 0x78]);
    let pulse = Released { clock: 0, channel: 3, width: 200, current: 120 };
    assert_eq!(told.pulses, [Some(pulse), None]);
    let told = last(&mut guard, &[0xF9, 0x51, 0x5D, 0x37]);
    let pulse = Released { clock: 0, channel: 6, width: 221, current: 55 };
    assert_eq!(told.pulses, [None, Some(pulse)]);
    assert_eq!(told.released().collect::<Vec<_>>(), [pulse]);
}
