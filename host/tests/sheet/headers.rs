//! "The header being line 1 and bad if the sheet is empty".

use crate::agree;
use crate::lines::{sheet, HEADER};
use crate::refused::{refused, GOOD};

#[test]
fn an_empty_sheet() {
    refused(b"", 1);
    refused(b"\n", 1);
    refused(b"\n\n", 1);
    refused(&[b"\n", HEADER.as_bytes()].concat(), 1);
}

#[test]
fn the_header_alone() {
    assert_eq!(agree::read(HEADER.as_bytes()), Ok(vec![]));
    assert_eq!(agree::read_into(HEADER.as_bytes(), 0), Ok(vec![]));
    for end in 0..HEADER.len() {
        refused(&HEADER.as_bytes()[..end], 1);
    }
}

#[test]
fn other_headers() {
    for header in [
        "Clock,kind,channel,width_us,current_ma,code",
        "clock,kind,channel,width_us,current_ma",
        "clock,kind,channel,width_us,current_ma,",
        "clock,kind,channel,width_us,current_ma,code,",
        "clock,kind,channel,width_us,current_ma,code ",
        " clock,kind,channel,width_us,current_ma,code",
        "clock, kind, channel, width_us, current_ma, code",
        "clock;kind;channel;width_us;current_ma;code",
        "clock,kind,channel,current_ma,width_us,code",
        "\"clock\",\"kind\",\"channel\",\"width_us\",\"current_ma\",\"code\"",
        "\"clock\",kind,channel,width_us,current_ma,code",
        "clock,kind,channel,width_us,current_ma,code\r",
        "\u{feff}clock,kind,channel,width_us,current_ma,code",
        "12345,pulse,1,100,10,",
        "clock",
        ",,,,,",
        "",
    ] {
        for behind in ["", "7,pulse,1,100,10,\n"] {
            refused(format!("{header}\n{behind}").as_bytes(), 1);
        }
    }
}

#[test]
fn a_second_header() {
    let header = HEADER.trim_end();
    refused(&sheet(&[header]), 2);
    refused(&sheet(&[GOOD[0], header, GOOD[1]]), 3);
}
