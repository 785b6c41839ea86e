//! The results and the modes in the paper's words, and the commands' numbers.

use yarrowbell::rehastim2::{ChannelList, Command, ErrorCode, StimulationMode};

/// Source 000, section 5.1.
#[test]
fn error_codes() {
    let words = [
        "No error",
        "Transfer error",
        "Parameter error",
        "Wrong mode error",
        "Motomed connection error",
        "Incompatible protocol version",
        "Invalid Motomed trainer",
        "Motomed busy error",
        "Busy error",
    ];
    for (number, words) in (0..).zip(words) {
        let code = ErrorCode(-number);
        assert_eq!((code.words(), code.to_string().as_str()), (Some(words), words));
        assert_eq!(ErrorCode::ALL[number as usize], code);
    }
    assert_eq!(ErrorCode::ALL.len(), words.len());
    for number in (i8::MIN..-8).chain(1..=i8::MAX) {
        assert_eq!(ErrorCode(number).words(), None);
        assert_eq!(ErrorCode(number).to_string(), "no error code");
    }
}

/// Source 000, section 4.2.
#[test]
fn stimulation_modes() {
    let words = ["Start mode", "Stimulation initialized", "Stimulation started"];
    for (number, words) in (0..).zip(words) {
        let mode = StimulationMode(number);
        assert_eq!((mode.words(), mode.to_string().as_str()), (Some(words), words));
    }
    for number in 3..=u8::MAX {
        assert_eq!(StimulationMode(number).words(), None);
        assert_eq!(StimulationMode(number).to_string(), "no stimulation mode");
    }
}

/// Source 000, section 3.
#[test]
fn numbers() {
    let result = ErrorCode::NO_ERROR;
    for (number, command) in [
        (1, Command::Init { version: 9 }),
        (2, Command::InitAck { result }),
        (3, Command::UnknownCommand { echo: 9 }),
        (4, Command::Watchdog),
        (10, Command::GetStimulationMode),
        (11, Command::GetStimulationModeAck { result, mode: None }),
        (30, Command::InitChannelListMode(ChannelList::default())),
        (31, Command::InitChannelListModeAck { result }),
        (32, Command::Other { number: 32 }),
    ] {
        assert_eq!(command.number(), number);
    }
}
