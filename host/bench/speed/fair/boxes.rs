//! Calls on a box, played on every side.

use super::same::{same, same_all};
use crate::boxes::{ByValue, Calls, InPlace, Plain, Scene, Side};
use soak::alike;
use yarrowbell::{calls, raw};

/// How the calls leave the box. Stops at the first difference.
pub fn play(scene: &Scene, calls: &Calls) -> Scene {
    let Played { record, buffer, .. } = on_all_sides(scene, calls);
    Scene { record, buffer, at: scene.at }
}

/// What the last of the calls answers. Stops at the first difference.
pub fn end(scene: &Scene, calls: &Calls) -> Option<u16> {
    on_all_sides(scene, calls).said.last().map(|said| said.answer)
}

/// Stops if the readouts differ.
pub fn read_out(scene: &Scene) {
    let Scene { record, buffer, at } = scene;
    let used = record.ring.used;
    let mut outs = [vec![0xA5; used], vec![0xA5; used]];
    let [first, second] = &mut outs;
    let library = calls::readout(alike::record(record), buffer, alike::part(*at), first);
    let plain = record.read_out(buffer, *at, second);
    same("a readout of a box", record, &(library.answer, Ok(library.used as usize)), &(0, plain));
    same_all("bytes of a readout of a box", record, &outs[0], &outs[1]);
}

/// How the calls leave a box, and all that they said.
struct Played<S: Side> {
    record: S::Record,
    buffer: Vec<u8>,
    said: Vec<raw::Said>,
}

fn on_all_sides(scene: &Scene, calls: &Calls) -> Played<Plain> {
    let plain = played::<Plain>(scene, calls);
    compare(scene, calls, &played::<InPlace>(scene, calls), &plain);
    compare(scene, calls, &played::<ByValue>(scene, calls), &plain);
    plain
}

fn played<S: Side>(scene: &Scene, calls: &Calls) -> Played<S> {
    let Scene { record, mut buffer, at } = scene.clone();
    let mut record = S::record(&record);
    let said = match calls {
        Calls::Bytes(bytes) => {
            let byte = |&byte| S::raw_said(S::byte(&mut record, &mut buffer, at, byte));
            bytes.iter().map(byte).collect()
        }
        Calls::Ticks(number) => {
            let tick = || S::raw_said(S::tick(&mut record, &mut buffer, at));
            std::iter::repeat_with(tick).take(*number).collect()
        }
    };
    Played { record, buffer, said }
}

fn compare<S: Side>(scene: &Scene, calls: &Calls, library: &Played<S>, plain: &Played<Plain>) {
    let told = (S::NAME, scene.record, calls);
    same_all("what the calls said", &told, &library.said, &plain.said);
    let records = (S::raw_record(&library.record), Plain::raw_record(&plain.record));
    same("the box after the calls", &told, &records.0, &records.1);
    same_all("bytes after the calls", &told, &library.buffer, &plain.buffer);
}
