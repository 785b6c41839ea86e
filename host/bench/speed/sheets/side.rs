//! The three that write and read sheets.

use independent::plain::sheet as fast;
use independent::sheet::{self as slow, NotRead};
use yarrowbell::calls::sheet as calls;

/// What is reported: the answer, the line and the bytes.
pub type Report = (u64, usize, usize);

/// Writes a sheet, or reads one, into an output.
pub type Call = fn(&[u8], &mut [u8]) -> Report;

pub trait Side {
    fn write(readout: &[u8], out: &mut [u8]) -> Report;
    fn read(sheet: &[u8], out: &mut [u8]) -> Report;
}

pub struct Library;
pub struct Plain;
pub struct Independent;

impl Side for Library {
    fn write(readout: &[u8], out: &mut [u8]) -> Report {
        let written = calls::write(readout, out);
        (written.answer, 0, written.used)
    }

    fn read(sheet: &[u8], out: &mut [u8]) -> Report {
        let read = calls::read(sheet, out);
        (read.answer, read.line, read.used)
    }
}

impl Side for Plain {
    fn write(readout: &[u8], out: &mut [u8]) -> Report {
        written(fast::write(readout, out))
    }

    fn read(sheet: &[u8], out: &mut [u8]) -> Report {
        read(fast::read(sheet, out))
    }
}

impl Side for Independent {
    fn write(readout: &[u8], out: &mut [u8]) -> Report {
        written(slow::write(readout, out))
    }

    fn read(sheet: &[u8], out: &mut [u8]) -> Report {
        read(slow::read(sheet, out))
    }
}

fn written(written: Result<usize, u8>) -> Report {
    match written {
        Ok(used) => (0, 0, used),
        Err(answer) => (answer.into(), 0, 0),
    }
}

fn read(read: Result<usize, NotRead>) -> Report {
    match read {
        Ok(used) => (0, 0, used),
        Err(NotRead::BadLine(line)) => (4, line, 0),
        Err(NotRead::OutputTooShort) => (16, 0, 0),
    }
}
