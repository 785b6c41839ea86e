//! Ring readouts, record by record.

use crate::folder::Folder;
use crate::run::{printed, prints};

const HEAD: &str = "  at       clock          ms  record";

/// Document 01's case 13, by the bytes written there.
const CASE_13: &str =
    "02 64 00 00 00 01 C8 00 28 02 73 00 00 00 03 2C 01 1E 02 91 00 00 00 03 2C 01 1E";

#[test]
fn case_13() {
    prints(
        &format!("trace {CASE_13}"),
        &[
            HEAD,
            "   0         100        10.0  pulse   channel 1, width 200 µs, current 40 mA",
            "   9         115        11.5  pulse   channel 3, width 300 µs, current 30 mA",
            "  18         145        14.5  pulse   channel 3, width 300 µs, current 30 mA",
        ],
    );
}

#[test]
fn every_kind_of_record() {
    prints(
        "trace 01000000000000 01050000000100 026400000008F4017F 03FF00000002 0100010000030A \
         01FFFFFFFF0009 03FFFFFFFF01",
        &[
            HEAD,
            "   0           0         0.0  answer  Ident 0 (Init), answer 0: command carried out",
            "   7           5         0.5  answer  Ident 1 (Update), answer 0: command carried out",
            "  14         100        10.0  pulse   channel 8, width 500 µs, current 127 mA",
            "  23         255        25.5  trip    cause 2: watchdog",
            "  29         256        25.6  answer  Ident 3 (Single), answer 10: Update or Single \
             while tripped",
            "  36  4294967295 429496729.5  answer  Ident 0 (Init), answer 9: over a limit",
            "  43  4294967295 429496729.5  trip    cause 1: limit",
        ],
    );
}

/// A record is known by its kind byte alone.
#[test]
fn fields_out_of_their_range() {
    prints(
        "trace 01000000000402 0101000000FF0B 020200000000090080 020300000009F50110 030400000000",
        &[
            HEAD,
            "   0           0         0.0  answer  Ident 4, answer 2  <-- no unit writes this: \
             Ident is 0 to 3; an answer is 0 or 3 to 10",
            "   7           1         0.1  answer  Ident 255, answer 11  <-- no unit writes this: \
             Ident is 0 to 3; an answer is 0 or 3 to 10",
            "  14           2         0.2  pulse   channel 0, width 9 µs, current 128 mA  \
             <-- no unit writes this: a channel is 1 to 8; a pulse's width is 10 to 500 µs; \
             a pulse's current is 1 to 127 mA",
            "  23           3         0.3  pulse   channel 9, width 501 µs, current 16 mA  \
             <-- no unit writes this: a channel is 1 to 8; a pulse's width is 10 to 500 µs",
            "  32           4         0.4  trip    cause 0  <-- no unit writes this: a cause is 1 or 2",
        ],
    );
}

#[test]
fn a_file() {
    let text = "# case 13\n 0264 00 00 00\t01 C800 28 # a pulse\r\n\n#\n\
                0273000000032c011e 02 91 00 00 00 03 2C 01 1E";
    let folder = Folder::new("a_file").with("case_13.trace", text);
    assert_eq!(folder.line("trace case_13.trace").out, printed(&format!("trace {CASE_13}")));
}

#[test]
fn an_empty_readout() {
    let folder = Folder::new("an_empty_readout");
    for text in ["", "\n \n", "# 03\n#"] {
        folder.put("empty.trace", text);
        let ran = folder.line("trace empty.trace");
        assert_eq!((ran.status, ran.out.as_str()), (0, "no records\n"), "{text:?}");
    }
}

/// The greatest ring there is, full.
#[test]
fn a_readout_of_4096_bytes() {
    let bytes = "01000000000000 ".repeat(4) + &"030000000001 ".repeat(678);
    let text = printed(&format!("trace {bytes}"));
    assert_eq!(text.lines().count(), 1 + 4 + 678);
    let last = "4090           0         0.0  trip    cause 1: limit  <-- no unit writes this: ";
    assert!(text.lines().last().is_some_and(|line| line.starts_with(last)), "{text}");
}
