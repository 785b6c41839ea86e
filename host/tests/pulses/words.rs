//! The results and the high voltages in the paper's words, the commands' numbers, and pulses.

use yarrowbell::rehamove3::{ChannelConfig, Command, HighVoltage, Outcome, Point, Pulse};

/// Source 002, section 6.
#[test]
fn outcomes() {
    let words = [
        (0, "No Error"),
        (1, "Transfer error"),
        (2, "Parameter error"),
        (4, "Stimulation Timeout"),
        (7, "Not initialized"),
        (10, "Electrode error"),
        (11, "Unknown Command"),
    ];
    assert_eq!(Outcome::ALL.map(|outcome| outcome.0), words.map(|(number, _)| number));
    for number in 0..=u8::MAX {
        let outcome = Outcome(number);
        let known = words.iter().find(|(known, _)| *known == number).map(|(_, words)| *words);
        assert_eq!(
            (outcome.words(), outcome.to_string().as_str()),
            (known, known.unwrap_or("no result"))
        );
    }
}

/// Source 002, section 4.2.
#[test]
fn high_voltages() {
    let words = ["Standard (150 V)", "Off", "30 V", "60 V", "90 V", "120 V", "150 V"];
    assert_eq!(HighVoltage::ALL.map(|voltage| voltage.0), [0, 1, 2, 3, 4, 5, 6]);
    for (number, words) in (0..).zip(words) {
        let voltage = HighVoltage(number);
        assert_eq!((voltage.words(), voltage.to_string().as_str()), (Some(words), words));
    }
    for number in 7..=u8::MAX {
        assert_eq!(HighVoltage(number).words(), None);
        assert_eq!(HighVoltage(number).to_string(), "no high voltage");
    }
}

/// Source 002, section 4.1.
#[test]
fn numbers() {
    let result = Outcome::NO_ERROR;
    let pulse = Pulse::new(&[Point::default()]).expect("a pulse may have one point");
    let config = ChannelConfig { execution: false, channel: 0, pulse };
    for (number, command) in [
        (0, Command::LlInit { voltage: HighVoltage::STANDARD }),
        (1, Command::LlInitAck { result }),
        (2, Command::LlChannelConfig(config)),
        (3, Command::LlChannelConfigAck { result, electrode: 0 }),
        (4, Command::LlStop),
        (5, Command::LlStopAck { result }),
        (1_023, Command::Other { number: 1_023 }),
    ] {
        assert_eq!(command.number(), number);
    }
}

/// A pulse is as long as it is told, shows its points, and is equal to one of the same points alone.
#[test]
fn pulses() {
    let point = Point { duration: 7, current: -1 };
    for number in 0..=20 {
        let points = vec![point; number];
        let pulse = Pulse::new(&points);
        assert_eq!(pulse.is_some(), (1..=Pulse::MOST).contains(&number), "{number}");
        if let Some(pulse) = pulse {
            assert_eq!(pulse.points(), points);
            assert_ne!(Some(pulse), Pulse::new(&points[1..]));
            let shown = format!("Pulse({points:?})");
            assert_eq!(format!("{pulse:?}"), shown);
        }
    }
    let bad = Point { duration: 0, current: 261 };
    assert_eq!(Pulse::new(&[point, bad]).and_then(|pulse| pulse.charge()), None);
    assert_eq!(Pulse::new(&[point, point]).and_then(|pulse| pulse.charge()), Some(-14));
}
