//! Every checksum, A5 and 5A among them.

use crate::agree::{self, refused, ROOM};
use independent::rehastim2::{checksum, compose, read, ChannelList, Command};

/// Commands of which a byte that is given can be any.
fn with(byte: u8) -> [Command; 3] {
    let list = ChannelList { active_channels: byte, ..ChannelList::default() };
    [
        Command::Init { version: byte },
        Command::UnknownCommand { echo: byte },
        Command::InitChannelListMode(list),
    ]
}

/// The checksum that a packet tells.
fn told(bytes: &[u8]) -> u8 {
    assert_eq!(bytes[1], 0x81);
    bytes[2] ^ 0x55
}

#[test]
fn of_every_command_with_a_byte() {
    for kind in 0..3 {
        for sum in 0..=255 {
            let numbers = (0..=255).flat_map(|packet| (0..=255).map(move |byte| (packet, byte)));
            let mut written = 0;
            for (packet, byte) in numbers {
                let command = with(byte)[kind];
                let whole = compose(packet, command.number(), &command.data());
                if told(&whole) != sum {
                    continue;
                }
                assert_eq!(agree::write(packet, command, ROOM), Ok(whole.clone()));
                let reading = agree::read(&whole, 60);
                assert_eq!((reading.answer, reading.command), (0, Some(command)));
                written += 1;
                if written == 8 {
                    break;
                }
            }
            assert_eq!(written, 8, "{sum:02X}");
        }
    }
}

/// Of the 256 that a packet could tell, one is right.
#[test]
fn every_other_one_is_wrong() {
    let list = ChannelList { active_channels: 0xF0, ..ChannelList::default() };
    for (packet, number, data) in [
        (0xC4, 4, vec![]),
        (0xDC, 4, vec![]),
        (0x81, 1, vec![0x0F]),
        (1, 30, Command::InitChannelListMode(list).data()),
        (2, 60, vec![0x33; 60]),
        (3, 60, vec![0xF0; 60]),
        (4, 60, vec![0; 61]),
        (5, 11, vec![0, 3]),
    ] {
        let mut bytes = compose(packet, number, &data);
        let right = told(&bytes);
        let answer = read(&bytes, 60).answer;
        for sum in 0..=255 {
            bytes[2] = sum ^ 0x55;
            let reading = agree::read(&bytes, 60);
            if sum == right {
                assert_eq!((reading.answer, reading.used), (answer, bytes.len()));
            } else {
                assert_eq!(reading, refused(3, bytes.len()), "{sum:02X}");
            }
        }
    }
}

/// It covers the stuffed bytes: that of the plain ones is wrong.
#[test]
fn of_the_stuffed_bytes() {
    for byte in [0xF0, 0x0F, 0x81] {
        let mut bytes = compose(byte, 4, &[]);
        assert_eq!(told(&bytes), checksum(&bytes[5..8]));
        assert_eq!(agree::read(&bytes, 0).answer, 0);
        bytes[2] = checksum(&[byte, 4]) ^ 0x55;
        assert_eq!(agree::read(&bytes, 0), refused(3, 9));
    }
}
