//! Why no packet is read or written, in words.

use yarrowbell::rehamove3::{
    read, write, ChannelConfig, Command, HighVoltage, NotRead, NotWritten, Outcome, Point, Pulse,
};

/// The number and the words of each reason: 0 is none of them.
fn not_read(why: NotRead) -> (u8, &'static str) {
    match why {
        NotRead::Unfinished => (1, "answer 1: packet not finished"),
        NotRead::WrongChecksum { .. } => (3, "answer 3: wrong or missing checksum"),
        NotRead::NotGood { .. } => {
            (4, "answer 4: wrong length, a stuffed pair that is never written, or value not good")
        }
        NotRead::OutputTooShort => (16, "answer 16: output too short for the packet's data"),
    }
}

#[test]
fn each_reason_not_to_read() {
    let right = [0xF0, 0x81, 0x55, 0x81, 0x58, 0x81, 0x13, 0x81, 0x20, 8, 5, 1, 0x0F];
    let (mut wrong, mut other_length) = (right, right);
    wrong[8] = 0x21;
    other_length[4] = 0x59;
    for (bytes, room, expected) in [
        (&[][..], 60, NotRead::Unfinished),
        (&right[..12], 0, NotRead::Unfinished),
        (&[0xF0, 0x0F], 60, NotRead::WrongChecksum { used: 2 }),
        (&wrong, 0, NotRead::WrongChecksum { used: 13 }),
        (&other_length, 0, NotRead::NotGood { used: 13 }),
        (&right, 0, NotRead::OutputTooShort),
    ] {
        let mut out = [0xAA; 60];
        let why = read(bytes, &mut out[..room]).expect_err("it is no good packet");
        assert_eq!(why, expected, "{bytes:02X?}");
        assert_eq!(out, [0xAA; 60]);
        let (number, words) = not_read(why);
        assert_eq!((why.answer().number(), why.to_string().as_str()), (number, words));
        assert_eq!(why.used(), if matches!(number, 3 | 4) { bytes.len() } else { 0 });
    }
}

/// A command that executes a pulse of these durations and currents on this channel.
fn config(channel: u8, points: &[(u16, i16)]) -> Command {
    let point = |&(duration, current): &(u16, i16)| Point { duration, current };
    let points: Vec<Point> = points.iter().map(point).collect();
    let pulse = Pulse::new(&points).expect("there are 1 to 16 points");
    Command::LlChannelConfig(ChannelConfig { execution: true, channel, pulse })
}

#[test]
fn each_reason_not_to_write() {
    let ack = |result, electrode| Command::LlChannelConfigAck { result, electrode };
    let not_good = "answer 4: value not good, or a command that is not written";
    let short = "answer 16: output too short for the packet";
    let charged = |charge| NotWritten::NotBalanced { charge };
    let net = "answer 4: net charge of 40 half milliamp microseconds, which is to be 0";
    let net_down = "answer 4: net charge of -260 half milliamp microseconds, which is to be 0";
    let balanced = &[(250, 40), (100, 0), (250, -40)];
    for (packet, command, room, expected, words) in [
        (2, Command::LlStop, 11, NotWritten::OutputTooShort, short),
        (64, Command::LlStop, 130, NotWritten::NotGood, not_good),
        (255, Command::LlStop, 0, NotWritten::NotGood, not_good),
        (1, Command::LlInit { voltage: HighVoltage(7) }, 130, NotWritten::NotGood, not_good),
        (1, Command::LlInitAck { result: Outcome(3) }, 0, NotWritten::NotGood, not_good),
        (1, Command::LlStopAck { result: Outcome(12) }, 130, NotWritten::NotGood, not_good),
        (1, ack(Outcome::ELECTRODE_ERROR, 4), 130, NotWritten::NotGood, not_good),
        (1, ack(Outcome::NO_ERROR, 4), 13, NotWritten::OutputTooShort, short),
        (1, Command::Other { number: 4 }, 130, NotWritten::NotGood, not_good),
        (1, config(0, balanced), 26, NotWritten::OutputTooShort, short),
        (1, config(4, balanced), 130, NotWritten::NotGood, not_good),
        (1, config(0, &[(4_096, 0)]), 130, NotWritten::NotGood, not_good),
        (1, config(0, &[(0, 261)]), 130, NotWritten::NotGood, not_good),
        (1, config(0, &[(0, i16::MIN)]), 130, NotWritten::NotGood, not_good),
        (1, config(0, &[(0, i16::MAX)]), 130, NotWritten::NotGood, not_good),
        (1, config(0, &[(251, 40), (100, 0), (250, -40)]), 130, charged(40), net),
        (1, config(0, &[(1, -260)]), 0, charged(-260), net_down),
        // A channel that there is not, too.
        (1, config(9, &[(1, 40)]), 130, charged(40), net),
    ] {
        let mut out = [0xAA; 130];
        let why = write(packet, &command, &mut out[..room]).expect_err("it cannot be written");
        assert_eq!((why, why.to_string().as_str()), (expected, words), "{command:?}");
        assert_eq!(out, [0xAA; 130]);
        let number = if why == NotWritten::OutputTooShort { 16 } else { 4 };
        assert_eq!(why.answer().number(), number);
    }
}

/// The bounds of a current are -130 and 130 mA.
#[test]
fn currents_at_their_bounds() {
    let there_and_back = config(3, &[(4_095, 260), (4_095, -260)]);
    let mut out = [0; 130];
    let used = write(0, &there_and_back, &mut out).expect("both are good");
    let packet = read(&out[..used], &mut [0; 9]).expect("it was written");
    assert_eq!((packet.command, packet.charge, packet.size), (there_and_back, 0, 9));
}
