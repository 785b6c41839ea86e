//! Every byte of a struct that crosses the boundary is a field's byte.

use crate::{rust, sources};
use std::mem::{offset_of, size_of, size_of_val};

/// A struct as the compiler lays it out.
struct Layout {
    name: &'static str,
    size: usize,
    fields: Vec<Laid>,
}

struct Laid {
    field: &'static str,
    offset: usize,
    size: usize,
}

/// The layouts of structs. All fields are to be named: the pattern asks for them.
macro_rules! layouts {
    ($($name:ident { $($field:ident),* })*) => {
        vec![$({
            let $name { $($field),* } = $name::default();
            let fields = vec![$(Laid {
                field: stringify!($field),
                offset: offset_of!($name, $field),
                size: size_of_val(&$field),
            }),*];
            Layout { name: stringify!($name), size: size_of::<$name>(), fields }
        }),*]
    };
}

fn all() -> Vec<Layout> {
    [of_frames_rings_and_boxes(), of_sheets(), of_the_rehastim2(), of_the_rehamove3()]
        .into_iter()
        .flatten()
        .collect()
}

fn of_frames_rings_and_boxes() -> Vec<Layout> {
    use yarrowbell::raw::*;
    layouts! {
        Init { factor, stim, lf, group, main }
        Setting { mode, width, current }
        Settings { all }
        Single { channel, width, current }
        Wrote { answer, used }
        ReadInit { answer, ident, used, init }
        ReadUpdate { answer, ident, used, settings }
        ReadStop { answer, ident, used }
        ReadSingle { answer, ident, used, single }
        Part { offset, size }
        Ring { capacity, start, used }
        Pushed { answer, ring }
        Readout { answer, used }
        Profile { currents, widths, charge, shortest, watchdog }
        Run { list, settings, waits, waiting, position, cycle, watch }
        Core { holda, holdb, state, run }
        PartialFrame { bytes, len, kept }
        BoxRecord { profile, clock, core, partial, ring }
        Released { clock, channel, width, current }
        Said { answer, reply, a, b }
        Made { answer, made }
        Called { said, next }
    }
}

fn of_sheets() -> Vec<Layout> {
    use yarrowbell::raw::sheet::*;
    layouts! {
        Written { answer, used }
        Read { answer, line, used }
    }
}

fn of_the_rehastim2() -> Vec<Layout> {
    use yarrowbell::raw::rehastim2::*;
    layouts! {
        ReadPacket {
            used, answer, packet, command, size, version, echo, mode, result, factor, active, lf,
            inter, main, execution
        }
        ReadEmpty { used, answer, packet, command, size }
        ReadVersion { used, answer, packet, command, size, version }
        ReadEcho { used, answer, packet, command, size, echo }
        ReadResult { used, answer, packet, command, size, result }
        ReadMode { used, answer, packet, command, size, result, mode }
        ReadList {
            used, answer, packet, command, size, factor, active, lf, inter, main, execution
        }
    }
}

fn of_the_rehamove3() -> Vec<Layout> {
    use yarrowbell::raw::rehamove3::*;
    layouts! {
        Point { duration, code }
        Pulse { number, points }
        Weighed { charge, answer }
        ReadPacket {
            used, charge, command, size, answer, packet, voltage, result, electrode, execution,
            channel, number, points
        }
        ReadEmpty { used, answer, packet, command, size }
        ReadVoltage { used, answer, packet, command, size, voltage }
        ReadResult { used, answer, packet, command, size, result }
        ReadElectrode { used, answer, packet, command, size, result, electrode }
        ReadConfig {
            used, charge, command, size, answer, packet, execution, channel, number, points
        }
    }
}

/// A line for each field behind which there are bytes before the next, or before the end.
fn gaps(layout: &Layout) -> Vec<String> {
    let mut fields: Vec<&Laid> = layout.fields.iter().collect();
    fields.sort_by_key(|laid| laid.offset);
    let ends = fields.iter().skip(1).map(|next| next.offset).chain([layout.size]);
    let gap = |(laid, end): (&&Laid, usize)| {
        let (name, field, gap) = (layout.name, laid.field, laid.offset + laid.size..end);
        let told = || format!("struct {name}: bytes {gap:?}, behind {field}, are no field's");
        (!gap.is_empty()).then(told)
    };
    fields.iter().zip(ends).filter_map(gap).collect()
}

#[test]
fn no_struct_has_a_gap() {
    let gaps: Vec<String> = all().iter().flat_map(gaps).collect();
    assert!(gaps.is_empty(), "\n{}", gaps.join("\n"));
}

/// `all` lacks none of the structs that are declared.
#[test]
fn every_struct_is_looked_at() {
    let sources = sources::below("host/src/raw", ".rs");
    let items = sources.iter().flat_map(|(file, text)| rust::items(file, text));
    let structs = items.filter_map(|(name, _)| Some(name.strip_prefix("struct ")?.to_owned()));
    let mut structs: Vec<String> = structs.collect();
    let mut looked_at: Vec<&str> = all().iter().map(|layout| layout.name).collect();
    structs.sort_unstable();
    looked_at.sort_unstable();
    assert_eq!(structs, looked_at);
}

#[test]
fn a_usize_has_8_bytes() {
    assert_eq!(size_of::<usize>(), 8);
}

#[test]
fn gaps_are_told() {
    use yarrowbell::raw::Ring;
    #[derive(Default)]
    #[repr(C)]
    struct Within {
        first: u8,
        second: u16,
        third: u8,
    }
    #[derive(Default)]
    #[repr(C)]
    struct AtTheEnd {
        long: u32,
        within: Within,
    }
    let layouts = layouts! {
        Within { third, second, first }
        AtTheEnd { long, within }
        Ring { capacity, start, used }
    };
    let told: Vec<String> = layouts.iter().flat_map(gaps).collect();
    assert_eq!(
        told,
        [
            "struct Within: bytes 1..2, behind first, are no field's",
            "struct Within: bytes 5..6, behind third, are no field's",
            "struct AtTheEnd: bytes 10..12, behind within, are no field's",
        ]
    );
}
