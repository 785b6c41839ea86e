//! One readout written or one sheet read: by the export, by what a host program uses of it, and by both
//! independent sheets. All of them report the same, and leave the same in an output and around it.

use crate::output::Output;
use independent::plain::sheet as fast;
use independent::sheet::{self as independently, NotRead};
use yarrowbell::calls::sheet as calls;
use yarrowbell::raw::sheet::{Read, Written};
use yarrowbell::{sheet, Answer};

/// Writes the sheet of a readout to an output of `room` bytes, and hands back what all say: the sheet, or
/// the answer of a refusal.
pub fn write(readout: &[u8], room: usize) -> Result<Result<Vec<u8>, u8>, String> {
    let mut out = vec![0; room];
    let expected = independently::write(readout, &mut out);
    out.truncate(*expected.as_ref().unwrap_or(&0));
    let told = |what: &str| format!("{what} on {readout:02X?}, room {room}");
    let output = Output { room, first: &out, told };

    let report = match expected {
        Ok(used) => Written { answer: 0, used },
        Err(answer) => Written { answer: answer.into(), used: 0 },
    };
    for other in [false, true] {
        output.same("write", other, report, |out| calls::write(readout, out))?;
    }
    output.same("the fast one", true, expected, |out| fast::write(readout, out))?;
    output.same("sheet::write", false, expected, |out| {
        sheet::write(readout, out).map_err(|why| why.answer().number())
    })?;
    Ok(expected.map(|_| out))
}

/// Puts the bytes of a sheet's records to an output of `room` bytes, and hands back what all say: these
/// bytes, or why there are none.
pub fn read(sheet: &[u8], room: usize) -> Result<Result<Vec<u8>, NotRead>, String> {
    let mut out = vec![0; room];
    let expected = independently::read(sheet, &mut out);
    out.truncate(*expected.as_ref().unwrap_or(&0));
    let told = |what: &str| format!("{what} on {:?}, room {room}", String::from_utf8_lossy(sheet));
    let output = Output { room, first: &out, told };

    let report = match expected {
        Ok(used) => Read { answer: 0, line: 0, used },
        Err(NotRead::BadLine(line)) => Read { answer: 4, line, used: 0 },
        Err(NotRead::OutputTooShort) => Read { answer: 16, line: 0, used: 0 },
    };
    for other in [false, true] {
        output.same("read", other, report, |out| calls::read(sheet, out))?;
    }
    output.same("the fast one", true, expected, |out| fast::read(sheet, out))?;
    output.same("sheet::read", false, expected, |out| {
        sheet::read(sheet, out).map_err(|why| match (why.answer(), why.line()) {
            (Answer::NotGood, Some(line)) => NotRead::BadLine(line),
            (Answer::OutputTooShort, None) => NotRead::OutputTooShort,
            other => panic!("{other:?}"),
        })
    })?;
    Ok(expected.map(|_| out))
}
