//! Each way in which a declaration can miss its export is told.

use crate::differences::differences;
use crate::item::gathered;
use crate::{rattle, rust};

const RATTLE: &str = r#"
// The box, and an extern "C" call on it.
use said::Said;
ghost use mathlib.Core.Path.{_≡_};

#[repr(C)]
pub struct Said {
    pub answer: u8,
    pub reply: u8,
    pub clock: u32,
}

// A `#[repr(C)]` struct that holds others.
#[repr(C)]
pub struct Box {
    pub said: [Said; 2],
    pub bytes: [u8; 25],
}

pub struct Inside {
    pub count: u8,
}

fn inside(n: u8) -> Inside
    ensures { λ r. ⌜ r .count ≡ n ⌝ }
{
    Inside { count: n }
}

#[no_mangle]
pub extern "C" fn yarrowbell_byte(b: &mut Box, buf: &mut [u8], n: u8, m: u8) -> Said
    requires { ⌜ n ≤ 25 ⌝ }
    ensures { λ r. ⌜ (r ≡ said (now (b .entry)) n) × (now (buf .exit) ≡ now (buf .entry)) ⌝ }
{
    let t = guard::byte(*b, buf, inside(n));
    *b = t.next;
    t.said
}

#[no_mangle]
pub extern "C" fn yarrowbell_readout(b: Box, out: &[u8]) -> usize
    ensures { λ r. ⌜ r ≡ 0 ⌝ }
{
    0
}
"#;

const RUST: &str = r#"
/// What a call says.
#[derive(Clone, Copy)]
#[repr(C)]
pub struct Said {
    pub answer: u8,
    pub reply: u8,
    pub clock: u32,
}

#[repr(C)]
pub struct BoxRecord {
    pub said: [Said; 2],
    pub bytes: [u8; 25],
}

extern "C" {
    pub(crate) fn yarrowbell_byte(
        b: *mut BoxRecord,
        buf: *mut u8,
        buf_length: usize,
        n: u8,
        m: u8,
    ) -> Said;
    pub(crate) fn yarrowbell_readout(b: BoxRecord, out: *const u8, out_length: usize) -> usize;
}
"#;

fn compared(rattle: &str, rust: &str) -> Vec<String> {
    compared_in(&[("lib.rt", rattle)], &[("raw.rs", rust)])
}

fn compared_in(rattle: &[(&str, &str)], rust: &[(&str, &str)]) -> Vec<String> {
    let exported = rattle.iter().flat_map(|(file, text)| rattle::items(file, text));
    let declared = rust.iter().flat_map(|(file, text)| rust::items(file, text));
    differences(&gathered(exported), &gathered(declared))
}

pub fn changed(text: &str, from: &str, to: &str) -> String {
    assert_eq!(text.matches(from).count(), 1, "{from}");
    text.replace(from, to)
}

/// The lines that are told when Rust has this instead of that.
fn told(from: &str, to: &str) -> Vec<String> {
    compared(RATTLE, &changed(RUST, from, to))
}

#[test]
fn alike() {
    assert_eq!(compared(RATTLE, RUST), [""; 0]);
}

#[test]
fn two_fields_swapped() {
    let [first, second] = ["    pub answer: u8,\n", "    pub reply: u8,\n"];
    let (there, here) = (first.to_owned() + second, second.to_owned() + first);
    assert_eq!(
        told(&there, &here),
        [
            "struct Said, field 1: lib.rt has `answer: u8`, raw.rs has `reply: u8`",
            "struct Said, field 2: lib.rt has `reply: u8`, raw.rs has `answer: u8`",
        ]
    );
    assert_eq!(
        compared(&changed(RATTLE, &there, &here), RUST),
        [
            "struct Said, field 1: lib.rt has `reply: u8`, raw.rs has `answer: u8`",
            "struct Said, field 2: lib.rt has `answer: u8`, raw.rs has `reply: u8`",
        ]
    );
}

#[test]
fn a_type_widened() {
    assert_eq!(
        told("pub reply: u8", "pub reply: u16"),
        ["struct Said, field 2: lib.rt has `reply: u8`, raw.rs has `reply: u16`"]
    );
    assert_eq!(
        told("[u8; 25]", "[u8; 26]"),
        ["struct BoxRecord, field 2: lib.rt has `bytes: [u8; 25]`, raw.rs has `bytes: [u8; 26]`"]
    );
}

#[test]
fn a_field_too_few() {
    let few = changed(RATTLE, "    pub clock: u32,\n", "");
    assert_eq!(
        compared(&few, RUST),
        ["struct Said, field 3: lib.rt has none, raw.rs has `clock: u32`"]
    );
    assert_eq!(
        told("    pub clock: u32,\n", ""),
        ["struct Said, field 3: lib.rt has `clock: u32`, raw.rs has none"]
    );
}

#[test]
fn a_function_missing() {
    let declaration =
        "pub(crate) fn yarrowbell_readout(b: BoxRecord, out: *const u8, out_length: usize) -> usize;";
    assert_eq!(told(declaration, ""), ["fn yarrowbell_readout stands in lib.rt alone"]);
}

#[test]
fn a_declaration_more() {
    assert_eq!(
        told(
            "extern \"C\" {",
            "extern \"C\" {\n    fn yarrowbell_tick(b: *mut BoxRecord) -> Said;"
        ),
        ["fn yarrowbell_tick stands in raw.rs alone"]
    );
    assert_eq!(
        told("extern \"C\" {", "#[repr(C)]\nstruct Made {}\n\nextern \"C\" {"),
        ["struct Made stands in raw.rs alone"]
    );
}

#[test]
fn a_parameter_of_another_type() {
    assert_eq!(
        told("n: u8", "n: u32"),
        ["fn yarrowbell_byte, parameter 4: lib.rt has `n: u8`, raw.rs has `n: u32`"]
    );
    assert_eq!(
        told("out: *const u8", "out: *mut u8"),
        ["fn yarrowbell_readout, parameter 2: lib.rt has `out: *const u8`, raw.rs has `out: *mut u8`"]
    );
    assert_eq!(
        told("b: *mut BoxRecord", "b: BoxRecord"),
        ["fn yarrowbell_byte, parameter 1: lib.rt has `b: *mut BoxRecord`, raw.rs has `b: BoxRecord`"]
    );
}

/// Both are numbers of one byte, so that only their names tell which is which.
#[test]
fn two_parameters_swapped() {
    assert_eq!(
        told("        n: u8,\n        m: u8,\n", "        m: u8,\n        n: u8,\n"),
        [
            "fn yarrowbell_byte, parameter 4: lib.rt has `n: u8`, raw.rs has `m: u8`",
            "fn yarrowbell_byte, parameter 5: lib.rt has `m: u8`, raw.rs has `n: u8`",
        ]
    );
}

#[test]
fn another_result() {
    assert_eq!(
        told(") -> Said;", ") -> BoxRecord;"),
        ["fn yarrowbell_byte, result: lib.rt has `Said`, raw.rs has `BoxRecord`"]
    );
    assert_eq!(
        told(") -> Said;", ");"),
        ["fn yarrowbell_byte, result: lib.rt has `Said`, raw.rs has none"]
    );
}

#[test]
fn a_struct_without_its_layout() {
    let own = changed(RATTLE, "#[repr(C)]\npub struct Said", "pub struct Said");
    assert_eq!(compared(&own, RUST), ["struct Said stands in raw.rs alone"]);
    for layout in ["", "#[repr(C, packed)]\n", "#[repr(transparent)]\n"] {
        assert_eq!(
            told("#[repr(C)]\npub struct Said", &format!("{layout}pub struct Said")),
            ["struct Said stands in lib.rt alone"]
        );
    }
}

/// A struct `Read` of each of two devices, with this field in that of the second.
fn of_two_devices(field: &str) -> Vec<String> {
    let rattle = |device: &str, field: &str| {
        let read = format!("#[repr(C)]\npub struct Read {{ pub {field}: u8 }}\n");
        read + &format!("pub extern \"C\" fn yarrowbell_{device}_read(n: u8) -> Read {{")
    };
    let rust = |device: &str, field: &str| {
        let read = format!("#[repr(C)]\npub struct Read {{ pub {field}: u8 }}\n");
        read + &format!("extern \"C\" {{ fn yarrowbell_{device}_read(n: u8) -> Read; }}")
    };
    compared_in(
        &[
            ("crates/a/src/one.rt", &rattle("rehastim2", "mode")),
            ("crates/b/src/two.rt", &rattle("rehamove3", "points")),
        ],
        &[
            ("host/src/raw/x/one.rs", &rust("rehamove3", field)),
            ("host/src/raw/y.rs", &rust("rehastim2", "mode")),
        ],
    )
}

#[test]
fn a_name_for_a_struct_of_each_device() {
    assert_eq!(of_two_devices("points"), [""; 0]);
    assert_eq!(
        of_two_devices("mode"),
        ["struct Read of rehamove3, field 1: crates/b/src/two.rt has `points: u8`, \
          host/src/raw/x/one.rs has `mode: u8`"]
    );
}

#[test]
#[should_panic(expected = "struct Said stands in lib.rt and in lib.rt")]
fn a_name_for_two() {
    compared(&changed(RATTLE, "pub struct Box {", "pub struct Said {"), RUST);
}

#[test]
#[should_panic(expected = "lib.rt: struct Said has a part that cannot cross the boundary")]
fn a_pair() {
    compared(&changed(RATTLE, "pub clock: u32", "pub clock: (u16, u16)"), RUST);
}
