//! "Where each field alone is in 01's ranges": every value of every field, written and read.

use crate::agree;
use crate::lines::{both_ways, sheet_of};
use crate::refused::{bad, refused};
use independent::sheet::in_range;
use independent::Record;

/// A record is written and read exactly if it is good.
fn stands(record: Record, good: bool) {
    assert_eq!(in_range(&record), good, "{record:?}");
    if good {
        both_ways(&[record]);
    } else {
        assert_eq!(agree::write(&record.bytes()), Err(4));
        refused(&sheet_of(&[record]), 2);
    }
}

/// Every byte beside those where a number gains a digit or a range begins or ends, both ways round.
fn pairs() -> impl Iterator<Item = (u8, u8)> {
    let edges = [0, 1, 2, 3, 4, 8, 9, 10, 11, 99, 100, 127, 128, 255];
    (0..=255)
        .flat_map(move |byte| edges.into_iter().flat_map(move |edge| [(byte, edge), (edge, byte)]))
}

#[test]
fn idents_and_answers() {
    for (ident, answer) in pairs() {
        let good = ident <= 3 && (answer == 0 || (3..=10).contains(&answer));
        stands(Record::Answer { clock: 7, ident, answer }, good);
    }
}

#[test]
fn channels_and_currents() {
    for (channel, current) in pairs() {
        let good = (1..=8).contains(&channel) && (1..=127).contains(&current);
        stands(Record::Pulse { clock: 7, channel, width: 100, current }, good);
    }
}

#[test]
fn widths() {
    let far = (1_200..u16::MAX).step_by(31).chain([u16::MAX]);
    for width in (0..1_200).chain(far) {
        let good = (10..=500).contains(&width);
        stands(Record::Pulse { clock: 7, channel: 8, width, current: 10 }, good);
    }
}

/// Every good value of each field beside every one of the others.
#[test]
fn pulses() {
    for channel in 1..=8 {
        let pulse = |width, current| Record::Pulse { clock: 12_345, channel, width, current };
        let all = (10..=500).flat_map(|width| (1..=127).map(move |current| pulse(width, current)));
        both_ways(&all.collect::<Vec<_>>());
    }
}

#[test]
fn causes() {
    for cause in 0..=255 {
        stands(Record::Trip { clock: 7, cause }, cause == 1 || cause == 2);
    }
}

/// "From 0 to 4,294,967,295": all are good. Here those around which the digits change, and others.
#[test]
fn clocks() {
    let tens = (0..10).flat_map(|digits| {
        let ten = 10_u32.pow(digits);
        (1..=9).filter_map(move |first| ten.checked_mul(first))
    });
    let twos = (0..32).map(|bits| 1 << bits);
    let around = |clock: u32| (0..=2).map(move |more| clock.saturating_add(more).saturating_sub(1));
    let spread = (0..=u32::MAX).step_by(999_983);
    for clock in tens.chain(twos).flat_map(around).chain(0..11_000).chain(spread).chain([u32::MAX])
    {
        stands(Record::Answer { clock, ident: 0, answer: 10 }, true);
        stands(Record::Pulse { clock, channel: 1, width: 10, current: 1 }, true);
        stands(Record::Trip { clock, cause: 1 }, true);
    }
}

/// Every second of the clock, and then every clock of one.
#[test]
fn seconds() {
    let seconds = (0..=u32::MAX / 10_000).map(|second| second * 10_000 + second % 7_296);
    let trip = |clock| Record::Trip { clock, cause: 1 };
    both_ways(&seconds.chain(10_000..20_000).map(trip).collect::<Vec<_>>());
}

/// Numbers that no record can hold.
#[test]
fn beyond_any_record() {
    for clock in ["4294967296", "4294967300", "4294970000", "5000000000", "9999999999"] {
        bad(&format!("{clock},trip,,,,1"));
    }
    for great in ["256", "257", "258", "259", "65536", "65537", "65546", "4294967297"] {
        bad(&format!("7,answer,{great},,,0"));
        bad(&format!("7,answer,0,,,{great}"));
        bad(&format!("7,pulse,{great},100,10,"));
        bad(&format!("7,pulse,1,100,{great},"));
        bad(&format!("7,trip,,,,{great}"));
    }
    for great in ["65536", "65546", "65636", "131072", "4294967396", "18446744073709551716"] {
        bad(&format!("7,pulse,1,{great},10,"));
    }
}

/// Eleven digits and more, in each field that has a number.
#[test]
fn overlong_numbers() {
    for digits in 11..=40 {
        for number in ["1".repeat(digits), "9".repeat(digits), format!("4294967295{:0digits$}", 0)]
        {
            for line in [
                format!("{number},trip,,,,1"),
                format!("{number},pulse,1,100,10,"),
                format!("{number},answer,0,,,0"),
                format!("7,answer,{number},,,0"),
                format!("7,answer,0,,,{number}"),
                format!("7,pulse,{number},100,10,"),
                format!("7,pulse,1,{number},10,"),
                format!("7,pulse,1,100,{number},"),
                format!("7,trip,,,,{number}"),
            ] {
                bad(&line);
            }
        }
    }
}
