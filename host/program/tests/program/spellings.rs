//! Ways to spell bytes in hex, wherever they are given.

use crate::folder::Folder;
use crate::run::{printed, words};

/// A Single on channel 3 and a Stop.
const PLAIN: &str = "E2 21 48 78 C0";

/// Each as it stands in a line.
const SPELLINGS: [&str; 16] = [
    "E2214878C0",
    "e2 21 48 78 c0",
    "E221 4878 C0",
    "0xE2,0x21,0x48,0x78,0xC0",
    "0xE2, 0x21, 0x48, 0x78, 0xC0,",
    "0XE2 0X21 0X48 0X78 0XC0",
    "0xE2214878C0",
    "0xE221 48 0x78C0",
    "E2:21:48:78:C0",
    "E2:21:48:78:C0:",
    "E2, 21, 48, 78, C0",
    "E2,21 ,48 , 78,C0 ,",
    "E2 , 21 : 48,78:C0",
    "E2\t21\t48\t78\tC0",
    "  E2  2148   78C0  ",
    "0xe2:0X21, 48 78C0",
];

#[test]
fn in_one_word_and_in_several() {
    let expected = printed(&format!("read {PLAIN}"));
    for spelling in SPELLINGS {
        let apart: Vec<&str> = ["read"].into_iter().chain(spelling.split_whitespace()).collect();
        for line in [&["read", spelling][..], &apart] {
            let ran = words(line);
            assert_eq!((ran.status, ran.out.as_str()), (0, expected.as_str()), "{line:?}");
        }
    }
}

#[test]
fn words_of_several_bytes() {
    let expected = printed("read E2 21 48 78");
    let spellings: [&[&str]; 7] = [
        &["E2214878"],
        &["e2214878"],
        &["E221", "4878"],
        &["E2 21 48 78"],
        &[" E2  2148 ", "78\n"],
        &["E2", "21 48", "78"],
        &["--channels=8", "E2214878"],
    ];
    for spelling in spellings {
        let ran = words(&[&["read"], spelling].concat());
        assert_eq!((ran.status, ran.out), (0, expected.clone()), "{spelling:?}");
    }
}

/// In a session's line.
#[test]
fn in_a_session() {
    let folder = Folder::new("in_a_session").with("plain", format!("5 {PLAIN}\n"));
    let expected = folder.line("replay plain --calls").out;
    for spelling in SPELLINGS {
        folder.put("s", format!("5 {spelling} # and so on, and so on\n"));
        let ran = folder.line("replay s --calls");
        assert_eq!((ran.status, &ran.out), (0, &expected), "{spelling:?}");
    }
}

/// In a script's line.
#[test]
fn in_a_script() {
    let folder = Folder::new("in_a_script");
    for spelling in SPELLINGS {
        let ran = folder.fed("session -", format!("at 5 bytes {spelling}\n"));
        assert_eq!((ran.status, ran.out), (0, format!("5 {PLAIN}\n")), "{spelling:?}");
    }
}

/// In the words, the file and the standard input of a trace: a trip's record.
#[test]
fn of_a_trace() {
    let folder = Folder::new("of_a_trace");
    let expected = printed("trace 03 FF 00 00 00 02");
    for spelling in [
        "03FF00000002",
        "0x03,0xFF,0x00,0x00,0x00,0x02",
        "0x03, 0xFF, 0x00,\n0x00, 0x00, 0x02,\n",
        "03:FF:00:00:00:02",
        "03:FF:00 # and\n\n:00:00,\n02",
        "03,\r\nFF,\r\n00,00,00,02,\r\n",
    ] {
        folder.put("t", spelling);
        let hex = spelling.replace("# and", "");
        let ran =
            [words(&["trace", &hex]), folder.line("trace t"), folder.fed("trace -", spelling)];
        for ran in ran {
            assert_eq!((ran.status, ran.out.as_str()), (0, expected.as_str()), "{spelling:?}");
        }
    }
}
