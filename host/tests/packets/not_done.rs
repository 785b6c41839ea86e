//! Why no packet is read or written, in words.

use yarrowbell::rehastim2::{
    read, write, ChannelList, Command, ErrorCode, NotRead, NotWritten, StimulationMode,
};

/// The number and the words of each reason: 0 is none of them.
fn not_read(why: NotRead) -> (u8, &'static str) {
    match why {
        NotRead::Unfinished => (1, "answer 1: packet not finished"),
        NotRead::WrongChecksum { .. } => (3, "answer 3: wrong or missing checksum"),
        NotRead::NotGood { .. } => {
            (4, "answer 4: wrong length, a stuffed pair that is never written, or value not good")
        }
        NotRead::OutputTooShort => (16, "answer 16: output too short for the packet's data"),
    }
}

#[test]
fn each_reason_not_to_read() {
    for (bytes, room, expected) in [
        (&[][..], 60, NotRead::Unfinished),
        (&[0xF0, 0x81, 0x47, 0x81, 0x56, 0, 1, 1], 0, NotRead::Unfinished),
        (&[0xF0, 0x0F], 60, NotRead::WrongChecksum { used: 2 }),
        (&[0xF0, 0x81, 0x46, 0x81, 0x56, 0, 1, 1, 0x0F], 0, NotRead::WrongChecksum { used: 9 }),
        (&[0xF0, 0x81, 0x47, 0x81, 0x55, 0, 1, 1, 0x0F], 0, NotRead::NotGood { used: 9 }),
        (&[0xF0, 0x81, 0x47, 0x81, 0x56, 0, 1, 1, 0x0F], 0, NotRead::OutputTooShort),
    ] {
        let mut out = [0xAA; 60];
        let why = read(bytes, &mut out[..room]).expect_err("it is no good packet");
        assert_eq!(why, expected, "{bytes:02X?}");
        assert_eq!(out, [0xAA; 60]);
        let (number, words) = not_read(why);
        assert_eq!((why.answer().number(), why.to_string().as_str()), (number, words));
        assert_eq!(why.used(), if matches!(number, 3 | 4) { bytes.len() } else { 0 });
    }
}

/// The same.
fn not_written(why: NotWritten) -> (u8, &'static str) {
    match why {
        NotWritten::NotGood => (4, "answer 4: value not good, or a command that is not written"),
        NotWritten::OutputTooShort => (16, "answer 16: output too short for the packet"),
    }
}

#[test]
fn each_reason_not_to_write() {
    let ack = |result, mode| Command::GetStimulationModeAck { result: ErrorCode(result), mode };
    let start = Some(StimulationMode::START_MODE);
    let list = ChannelList { factor: 8, ..ChannelList::default() };
    for (command, room, expected) in [
        (Command::Watchdog, 7, NotWritten::OutputTooShort),
        (Command::InitAck { result: ErrorCode(-9) }, 0, NotWritten::NotGood),
        (Command::InitAck { result: ErrorCode(1) }, 24, NotWritten::NotGood),
        (Command::InitAck { result: ErrorCode(-8) }, 8, NotWritten::OutputTooShort),
        (Command::InitChannelListMode(list), 0, NotWritten::NotGood),
        (Command::Other { number: 1 }, 24, NotWritten::NotGood),
        // A mode where none is to be, none where one is to be, and one that there is not.
        (ack(-1, start), 24, NotWritten::NotGood),
        (ack(0, None), 24, NotWritten::NotGood),
        (ack(0, Some(StimulationMode(3))), 24, NotWritten::NotGood),
        (ack(0, start), 9, NotWritten::OutputTooShort),
        (ack(-1, None), 8, NotWritten::OutputTooShort),
    ] {
        let mut out = [0xAA; 24];
        let why = write(1, &command, &mut out[..room]).expect_err("it cannot be written");
        assert_eq!(why, expected, "{command:?}");
        assert_eq!(out, [0xAA; 24]);
        let (number, words) = not_written(why);
        assert_eq!((why.answer().number(), why.to_string().as_str()), (number, words));
    }
}
