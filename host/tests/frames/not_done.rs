//! Why no frame is read or written, in words.

use yarrowbell::{read, write, Command, NotRead, NotWritten, Setting, Single};

/// The number and the words of each reason: 0 is none of them.
fn not_read(why: NotRead) -> (u8, &'static str) {
    match why {
        NotRead::Unfinished => (1, "answer 1: byte taken, frame unfinished"),
        NotRead::LowByte => (2, "answer 2: low byte, no frame open"),
        NotRead::WrongCheck => (3, "answer 3: wrong check"),
        NotRead::NotGood => (4, "answer 4: value not good"),
        NotRead::Cut => (17, "answer 17: frame cut: a high byte before the frame's end"),
    }
}

#[test]
fn each_reason_not_to_read() {
    for (bytes, count, expected) in [
        // Document 01's order: the count, no byte, a low first byte, too few bytes, a high byte.
        (&[][..], 9, NotRead::NotGood),
        (&[0xE2, 0x21, 0x48, 0x78], 0, NotRead::NotGood),
        (&[], 1, NotRead::Unfinished),
        (&[0x21, 0x48, 0x78], 1, NotRead::LowByte),
        (&[0xE2, 0x21, 0x48], 1, NotRead::Unfinished),
        (&[0xE2, 0xA1, 0x48, 0x78], 1, NotRead::Cut),
        // Then the check and the values: a width of 9.
        (&[0xE3, 0x21, 0x48, 0x78], 1, NotRead::WrongCheck),
        (&[0xE9, 0x00, 0x09, 0x00], 1, NotRead::NotGood),
    ] {
        let why = read(bytes, count).expect_err("it is no good frame");
        assert_eq!(why, expected, "{bytes:02X?}");
        let (number, words) = not_read(why);
        assert_eq!((why.answer().number(), why.to_string().as_str()), (number, words));
    }
}

/// The same.
fn not_written(why: NotWritten) -> (u8, &'static str) {
    match why {
        NotWritten::NotGood => (4, "answer 4: value not good"),
        NotWritten::OutputTooShort => (16, "answer 16: output too short"),
    }
}

#[test]
fn each_reason_not_to_write() {
    let single = |width| Command::Single(Single { channel: 2, width, current: 120 });
    let update = Command::Update([Setting { mode: 0, width: 200, current: 40 }; 8]);
    for (command, count, room, expected) in [
        (single(9), 1, 3, NotWritten::NotGood),
        (single(200), 1, 3, NotWritten::OutputTooShort),
        (Command::Stop, 1, 0, NotWritten::OutputTooShort),
        (update, 0, 25, NotWritten::NotGood),
        (update, 7, 25, NotWritten::NotGood),
        (update, 8, 24, NotWritten::OutputTooShort),
    ] {
        let mut out = [0xAA; 25];
        let why = write(&command, count, &mut out[..room]).expect_err("it cannot be written");
        assert_eq!(why, expected, "{command:?}");
        assert_eq!(out, [0xAA; 25]);
        let (number, words) = not_written(why);
        assert_eq!((why.answer().number(), why.to_string().as_str()), (number, words));
    }
}
