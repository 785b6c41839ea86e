//! Each reading export on frames of every kind, without the help of the independent codec.

use yarrowbell::calls::{read_init, read_single, read_stop, read_update};
use yarrowbell::raw::{Init, ReadInit, ReadSingle, ReadStop, ReadUpdate, Setting, Single};

const INIT: &[u8] = &[0x88, 0x01, 0x20, 0x00, 0x30, 0x12];
const UPDATE: &[u8] = &[0xBB, 0x01, 0x48, 0x28, 0x22, 0x2C, 0x1E];
const STOP: &[u8] = &[0xC0];
const SINGLE: &[u8] = &[0xE2, 0x21, 0x48, 0x78];

/// Ident, bytes and frame: the fields are those of document 01's cases 1, 5, 6 and 7.
const FRAMES: [(u8, u16, &[u8]); 4] = [(0, 6, INIT), (1, 7, UPDATE), (2, 1, STOP), (3, 4, SINGLE)];

#[test]
fn fields_of_its_own_kind_alone() {
    for (ident, used, frame) in FRAMES {
        let init = if ident == 0 {
            Init { factor: 0, stim: 0b101, lf: 0, group: 3, main: 18 }
        } else {
            Init::default()
        };
        let mut settings = [Setting::default(); 8];
        if ident == 1 {
            settings[0] = Setting { mode: 0, width: 200, current: 40 };
            settings[1] = Setting { mode: 1, width: 300, current: 30 };
        }
        let single = if ident == 3 {
            Single { channel: 2, width: 200, current: 120 }
        } else {
            Single::default()
        };
        assert_eq!(read_init(frame, 2), ReadInit { answer: 0, ident, used, init });
        assert_eq!(read_update(frame, 2), ReadUpdate { answer: 0, ident, used, settings });
        assert_eq!(read_stop(frame, 2), ReadStop { answer: 0, ident, used });
        assert_eq!(read_single(frame, 2), ReadSingle { answer: 0, ident, used, single });
    }
}

#[test]
fn zeros_on_a_refusal() {
    let refused: [(u8, &[u8], usize); 9] = [
        (4, SINGLE, 0),
        (4, INIT, 9),
        (1, &[], 2),
        (2, &[0x21, 0x48, 0x78], 2),
        (1, &INIT[..5], 2),
        (1, UPDATE, 3),
        (17, &[0xE2, 0x21, 0xC8, 0x78], 2),
        (3, &[0xC1], 2),
        (4, &[0x80, 0x00, 0x00, 0x00, 0x30, 0x15], 2),
    ];
    for (answer, bytes, count) in refused {
        assert_eq!(read_init(bytes, count), ReadInit { answer, ..Default::default() });
        assert_eq!(read_update(bytes, count), ReadUpdate { answer, ..Default::default() });
        assert_eq!(read_stop(bytes, count), ReadStop { answer, ..Default::default() });
        assert_eq!(read_single(bytes, count), ReadSingle { answer, ..Default::default() });
    }
}
