//! The comparison of the exports with the independent codec.

use independent::{Command, Frame};
use yarrowbell::{calls, raw, Answer, NotRead, NotWritten};

/// Reads by every export and by the independent codec, and hands back what all of them say.
pub fn read(bytes: &[u8], count: usize) -> Result<Frame, u8> {
    let expected = independent::read(bytes, count);
    let mut init = raw::ReadInit::default();
    let mut update = raw::ReadUpdate::default();
    let mut stop = raw::ReadStop::default();
    let mut single = raw::ReadSingle::default();
    match &expected {
        Ok(frame) => {
            let (ident, used) = (frame.command.kind() as u8, frame.used as u16);
            (init.ident, init.used) = (ident, used);
            (update.ident, update.used) = (ident, used);
            (stop.ident, stop.used) = (ident, used);
            (single.ident, single.used) = (ident, used);
            match ours(&frame.command) {
                yarrowbell::Command::Init(fields) => init.init = fields,
                yarrowbell::Command::Update(fields) => update.settings = fields,
                yarrowbell::Command::Stop => {}
                yarrowbell::Command::Single(fields) => single.single = fields,
            }
        }
        Err(answer) => {
            init.answer = *answer;
            update.answer = *answer;
            stop.answer = *answer;
            single.answer = *answer;
        }
    }
    assert_eq!(calls::read_init(bytes, count), init, "{bytes:02X?}, count {count}");
    assert_eq!(calls::read_update(bytes, count), update, "{bytes:02X?}, count {count}");
    assert_eq!(calls::read_stop(bytes, count), stop, "{bytes:02X?}, count {count}");
    assert_eq!(calls::read_single(bytes, count), single, "{bytes:02X?}, count {count}");
    let wrapped = expected
        .map(|frame| yarrowbell::Frame { command: ours(&frame.command), used: frame.used })
        .map_err(known);
    let read = yarrowbell::read(bytes, count).map_err(NotRead::answer);
    assert_eq!(read, wrapped, "{bytes:02X?}, count {count}");
    expected
}

/// The longest output that `write` lends.
pub const ROOM: usize = 32;
/// What lies on either side of that output and must not be touched.
const GUARD: usize = 16;
const WHOLE: usize = GUARD + ROOM + GUARD;

/// Writes by the command's export and by the independent codec into an output of `room` bytes
/// within a larger buffer, compares the whole buffers, and hands back the frame.
///
/// This is done over two fillings of which no byte is equal, so that a byte written stands out in
/// one of them whatever it is.
pub fn write(command: &Command, count: usize, room: usize) -> Result<Vec<u8>, u8> {
    let filling: [u8; WHOLE] = std::array::from_fn(|place| (place * 37 + 11) as u8);
    let (mut expected, mut found) = (filling, filling);
    let output = GUARD..GUARD + room;
    let answer = independent::write(command, count, &mut expected[output.clone()]);
    let out = &mut found[output.clone()];
    let wrote = match ours(command) {
        yarrowbell::Command::Init(init) => calls::write_init(init, out),
        yarrowbell::Command::Update(settings) => calls::write_update(settings, count, out),
        yarrowbell::Command::Stop => calls::write_stop(out),
        yarrowbell::Command::Single(single) => calls::write_single(single, out),
    };
    let report = match answer {
        Ok(used) => raw::Wrote { answer: 0, used: used as u8 },
        Err(answer) => raw::Wrote { answer, used: 0 },
    };
    assert_eq!(wrote, report, "{command:?}, count {count}, room {room}");
    assert_eq!(found, expected, "{command:?}, count {count}, room {room}");

    let frame = answer.map(|used| expected[GUARD..GUARD + used].to_vec());
    let filling = filling.map(|byte| !byte);
    let (mut expected, mut found) = (filling, filling);
    if let Ok(frame) = &frame {
        expected[GUARD..GUARD + frame.len()].copy_from_slice(frame);
    }
    let wrapped = yarrowbell::write(&ours(command), count, &mut found[output]);
    let wrapped = wrapped.map_err(NotWritten::answer);
    assert_eq!(wrapped, answer.map_err(known), "{command:?}, count {count}, room {room}");
    assert_eq!(found, expected, "{command:?}, count {count}, room {room}");
    frame
}

/// A command of the independent codec as the package has it.
pub fn ours(command: &Command) -> yarrowbell::Command {
    match command {
        Command::Init(init) => yarrowbell::Command::Init(yarrowbell::Init {
            factor: init.n_factor,
            stim: init.channel_stim,
            lf: init.channel_lf,
            group: init.group_time,
            main: init.main_time,
        }),
        Command::Update(settings) => {
            yarrowbell::Command::Update(settings.map(|setting| yarrowbell::Setting {
                mode: setting.mode,
                width: setting.pulse_width,
                current: setting.pulse_current,
            }))
        }
        Command::Stop => yarrowbell::Command::Stop,
        Command::Single(single) => yarrowbell::Command::Single(yarrowbell::Single {
            channel: single.channel_number,
            width: single.pulse_width,
            current: single.pulse_current,
        }),
    }
}

fn known(answer: u8) -> Answer {
    Answer::from_number(answer).expect("the independent codec answers by document 01")
}
