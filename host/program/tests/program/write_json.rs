//! `write --json`, compared with the independent codec.

use crate::objects::{command, has, hex, told};
use crate::round_trips::spelt;
use crate::writings::TOO_SHORT;
use crate::{random, run};
use rand::Rng;
use serde_json::json;

#[test]
fn frames() {
    run::prints(
        "write single --channel 3 --width 200 --current 120 --json",
        &["{\"bytes\":\"E2 21 48 78\",\"command\":\"Single\",\"ident\":3,\"fields\":{\
           \"channel_number\":2,\"pulse_width\":200,\"pulse_current\":120},\"fields_words\":{\
           \"channel_number\":\"2: channel 3\",\"pulse_width\":\"200 µs\",\
           \"pulse_current\":\"120 mA\"},\"note\":null}"],
    );
    has("write --json stop", json!({"bytes": "C0", "ident": 2, "fields": null, "note": null}));
    has("write update 0:0:0 2:500:127 --json", json!({"note": "for a list of 2 channels"}));
    let note = json!({"note": TOO_SHORT.trim_end()});
    has("write init --channels 1 --group-time 3 --main-time 4 --json", note.clone());
    has("read 80 00 20 00 30 04 7F --json", note);
    run::bad(
        "write single --json --channel 3 --width 9 --current 120",
        "--width: 9 is not good (answer 4: value not good): a width is 0 or 10 to 500 µs",
    );
}

#[test]
fn any_command() {
    random::seeded(25_000..25_100, |rng| {
        let count = rng.gen_range(1..=8);
        for given in [random::init(rng), random::update(rng, count), random::single(rng)] {
            let line = spelt(&given, count);
            let told = told(&format!("{line} --json"));
            let command = command(&told);
            let frame = independent::compose(&command, count, independent::check(&command));
            assert_eq!(told["bytes"], hex(&frame), "{line}");
            assert_eq!(run::line(&line).out.trim_end(), hex(&frame), "{line}");
        }
    });
}
