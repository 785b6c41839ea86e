//! `read --json`, compared with the independent codec.

use crate::objects::{command, has, hex, number, told, Object};
use crate::{random, run};
use independent::{Command, Single};
use rand::Rng;
use serde_json::{json, Value};

/// The keys stand in this order.
#[test]
fn a_good_frame() {
    run::prints(
        "read E2 2D 48 78 --json",
        &[
            "{\"bytes\":\"E2 2D 48 78\",\"command\":\"Single\",\"ident\":3,\"channels\":null,\
           \"channels_from\":null,\"length\":4,\"there\":4,\"check\":2,\"sum\":322,\"modulus\":32,\
           \"check_should_be\":2,\"fields\":{\"channel_number\":2,\"pulse_width\":200,\
           \"pulse_current\":120},\"fields_words\":{\"channel_number\":\"2: channel 3\",\
           \"pulse_width\":\"200 µs\",\"pulse_current\":\"120 mA\"},\"faults\":[],\
           \"dont_care_set\":[{\"byte\":2,\"bits\":[3,2]}],\"cut_by\":null,\"behind\":null,\
           \"used\":4,\"answer\":0,\"answer_words\":\"good frame\",\"reply\":\"C1\",\"note\":null}",
        ],
    );
}

#[test]
fn refused_frames() {
    has(
        "read E3 21 48 78 --json",
        json!({
            "check": 3, "sum": 322, "modulus": 32, "check_should_be": 2, "used": 0, "answer": 3,
            "answer_words": "wrong check", "reply": "C0",
            "fields": {"channel_number": 2, "pulse_width": 200, "pulse_current": 120},
        }),
    );
    has(
        "read BB 01 48 28 22 2C --json",
        json!({
            "command": "Update", "ident": 1, "channels": 2, "channels_from": "bytes", "length": 7,
            "there": 6, "check": 27, "sum": null, "modulus": null, "check_should_be": null,
            "fields": [
                {"mode": 0, "pulse_width": 200, "pulse_current": 40},
                {"mode": 1, "pulse_width": 300, "pulse_current": null},
            ],
            "used": 0, "answer": 1, "answer_words": "byte taken, frame unfinished", "reply": null,
        }),
    );
    has(
        "read E2 21 C0 78 01 --json",
        json!({
            "length": 4, "there": 2, "cut_by": "C0", "behind": "78 01", "answer": 17, "reply": null,
            "fields": {"channel_number": 2, "pulse_width": null, "pulse_current": null},
            "fields_words": {
                "channel_number": "2: channel 3", "pulse_width": "-: bits 6 to 0 missing",
                "pulse_current": null,
            },
        }),
    );
    has(
        "read A4 60 01 00 --json",
        json!({
            "answer": 4, "reply": "40", "faults": [
                {"field": "mode", "entry": 1, "rule": "Mode is 0, 1 or 2"},
                {"field": "pulse_width", "entry": 1, "rule": "a width is 0 or 10 to 500 µs"},
            ],
        }),
    );
    has(
        "read 94 00 00 00 30 12 --json",
        json!({
            "answer": 4, "reply": "00", "faults": [{
                "field": "channel_stim", "entry": null, "rule": "a list has at least one channel",
            }],
        }),
    );
    has(
        "read 21 48 F8 --json",
        json!({
            "command": null, "ident": null, "length": null, "there": null, "check": null,
            "fields": null, "fields_words": null, "behind": "48 F8", "answer": 2, "reply": null,
        }),
    );
    has(
        "read E2 21 48 78 --channels 9 --json",
        json!({
            "answer": 4, "used": 0, "reply": null,
            "note": "--channels 9 is not good: a list has 1 to 8 channels",
        }),
    );
    has(
        "read A0 --channels 3 --json",
        json!({"channels": 3, "channels_from": "argument", "length": 10}),
    );
    has(
        "read C0 --json",
        json!({"fields": null, "fields_words": null, "answer": 0, "reply": "81"}),
    );
}

/// Whole or not, good or not: what is told of the library's answer is the independent codec's, and
/// the fields of a whole frame, written again with its check and its don't-care bits, are its bytes.
#[test]
fn any_bytes() {
    let mut met = [0; 18];
    random::seeded(24_000..24_300, |rng| {
        let count = rng.gen_range(1..=8);
        let command = [random::init(rng), random::update(rng, count), random::single(rng)];
        let mut bytes = [0; 25];
        let used = yarrowbell::write(&command[rng.gen_range(0..3)], count, &mut bytes);
        let mut bytes = bytes[..used.expect("the values are good")].to_vec();
        match rng.gen_range(0..5) {
            0 => bytes = random::bytes(rng),
            1 => bytes.truncate(rng.gen_range(1..=bytes.len())),
            2 => {
                let place = rng.gen_range(0..bytes.len());
                bytes[place] ^= 1 << rng.gen_range(0..8);
            }
            3 => {
                let pulse_width = [1, 9, 501, 511][rng.gen_range(0..4)];
                let single = Command::Single(Single { pulse_width, ..Single::default() });
                bytes = independent::compose(&single, 1, independent::check(&single));
            }
            _ => bytes.extend(random::bytes(rng)),
        }
        let told = told(&format!("read --json --channels {count} {}", hex(&bytes)));
        let ident = bytes[0] >> 5 & 3;
        let read = independent::read(&bytes, count);
        let (answer, used) = read.map_or_else(|answer| (answer, 0), |frame| (0, frame.used));
        let reply = format!("{:02X}", independent::reply(ident, answer));
        assert_eq!(told["bytes"], hex(&bytes));
        assert_eq!((number(&told["answer"]), number(&told["used"])), (answer.into(), used));
        let decided = ![1, 2, 17].contains(&answer);
        assert_eq!(told["reply"], if decided { json!(reply) } else { Value::Null });
        assert_eq!(told["ident"], if answer == 2 { Value::Null } else { json!(ident) });
        let faults = told["faults"].as_array().expect("a list").len();
        assert!(if answer == 4 { faults > 0 } else { faults == 0 || answer != 0 });
        if decided {
            let frame = written_again(&told, count);
            assert_eq!(frame, bytes[..frame.len()], "{told:?}");
            assert_eq!(told["check"] == told["check_should_be"], answer != 3);
        }
        met[usize::from(answer)] += 1;
    });
    for answer in [0, 1, 2, 3, 4, 17] {
        assert!(met[answer] > 5, "{met:?} show little");
    }
}

/// The frame that an object tells, put together by the independent codec.
fn written_again(told: &Object, count: usize) -> Vec<u8> {
    let command = command(told);
    let check = number(&told["check"]) as u8;
    let mut frame = independent::compose(&command, count, check);
    for set in told["dont_care_set"].as_array().expect("a list") {
        for bit in set["bits"].as_array().expect("a list") {
            frame[number(&set["byte"]) - 1] |= 1 << number(bit);
        }
    }
    frame
}
