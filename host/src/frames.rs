//! Frames as a host program reads and writes them.

use crate::raw::{Init, Setting, Single, Wrote};
use crate::{calls, Answer, NotRead, NotWritten};

/// A command (source 003, section 5.2). An Update has a setting for each listed channel, lowest
/// first, and zeros behind them.
#[derive(Clone, Copy, Debug, PartialEq, Eq)]
pub enum Command {
    /// Ident 0: a list of channels and its times.
    Init(Init),
    /// Ident 1: the settings of the listed channels.
    Update([Setting; 8]),
    /// Ident 2: the end of the list.
    Stop,
    /// Ident 3: one pulse on one channel.
    Single(Single),
}

/// A command as it was read, and how many bytes its frame has.
#[derive(Clone, Copy, Debug, PartialEq, Eq)]
pub struct Frame {
    /// What was read.
    pub command: Command,
    /// How many bytes its frame has.
    pub used: usize,
}

/// Reads the frame at the start of `bytes`. `count` is the number of listed channels, 1 to 8, which
/// an Update's length follows from; any other is [`NotRead::NotGood`].
///
/// ```
/// use yarrowbell::{read, Command, NotRead, Single};
///
/// let frame = read(&[0xE2, 0x21, 0x48, 0x78], 1)?;
/// assert_eq!(frame.command, Command::Single(Single { channel: 2, width: 200, current: 120 }));
/// assert_eq!(read(&[0xE3, 0x21, 0x48, 0x78], 1), Err(NotRead::WrongCheck));
/// # Ok::<(), NotRead>(())
/// ```
pub fn read(bytes: &[u8], count: usize) -> Result<Frame, NotRead> {
    // Any export refuses an empty slice or a low first byte alike.
    let ident = bytes.first().map_or(0, |first| first >> 5 & 3);
    let (answer, command, used) = match ident {
        0 => {
            let read = calls::read_init(bytes, count);
            (read.answer, Command::Init(read.init), read.used)
        }
        1 => {
            let read = calls::read_update(bytes, count);
            (read.answer, Command::Update(read.settings), read.used)
        }
        2 => {
            let read = calls::read_stop(bytes, count);
            (read.answer, Command::Stop, read.used)
        }
        _ => {
            let read = calls::read_single(bytes, count);
            (read.answer, Command::Single(read.single), read.used)
        }
    };
    NotRead::known(answer).map_or(Ok(Frame { command, used: used.into() }), Err)
}

/// Writes the frame of a command to the start of `out`, and hands back how many bytes it has, 25 at
/// most. `count` is the number of listed channels, which matters to an Update alone.
///
/// ```
/// use yarrowbell::{write, Command, NotWritten, Single};
///
/// let single = Command::Single(Single { channel: 2, width: 200, current: 120 });
/// let mut out = [0; 25];
/// let used = write(&single, 1, &mut out)?;
/// assert_eq!(out[..used], [0xE2, 0x21, 0x48, 0x78]);
/// # Ok::<(), NotWritten>(())
/// ```
pub fn write(command: &Command, count: usize, out: &mut [u8]) -> Result<usize, NotWritten> {
    let Wrote { answer, used } = match command {
        Command::Init(init) => calls::write_init(*init, out),
        Command::Update(settings) => calls::write_update(*settings, count, out),
        Command::Stop => calls::write_stop(out),
        Command::Single(single) => calls::write_single(*single, out),
    };
    NotWritten::known(answer).map_or(Ok(used.into()), Err)
}

/// The reply byte to a decided command, of whose Ident only the low two bits count; 0 where the
/// answer decides none.
///
/// ```
/// use yarrowbell::{reply, Answer};
///
/// // To a Single that is carried out, to one that is not, and to one that has just begun.
/// assert_eq!(reply(3, Answer::Done), 0xC1);
/// assert_eq!(reply(3, Answer::OverLimit), 0xC0);
/// assert_eq!(reply(3, Answer::Unfinished), 0);
/// ```
pub fn reply(ident: u8, answer: Answer) -> u8 {
    calls::reply(ident, answer.number())
}
