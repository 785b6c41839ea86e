//! The independent machine's numbers in the records of the library.

use independent::plain::machine::{BoxRecord, PartialFrame, Profile, Pulse, Run, Said};
use independent::{Init, Part, Ring, Setting, Single};
use yarrowbell::raw;

#[inline(always)]
pub fn part(at: Part) -> raw::Part {
    raw::Part { offset: at.offset, size: at.size }
}

#[inline(always)]
pub fn ring(ring: Ring) -> raw::Ring {
    let Ring { capacity, start, used } = ring;
    raw::Ring { capacity: narrow(capacity), start: narrow(start), used: narrow(used) }
}

pub fn init(init: Init) -> raw::Init {
    raw::Init {
        factor: init.n_factor,
        stim: init.channel_stim,
        lf: init.channel_lf,
        group: init.group_time,
        main: init.main_time,
    }
}

pub fn settings(settings: [Setting; 8]) -> [raw::Setting; 8] {
    settings.map(|setting| raw::Setting {
        mode: setting.mode,
        width: setting.pulse_width,
        current: setting.pulse_current,
    })
}

pub fn single(single: Single) -> raw::Single {
    raw::Single {
        channel: single.channel_number,
        width: single.pulse_width,
        current: single.pulse_current,
    }
}

pub fn profile(profile: Profile) -> raw::Profile {
    let Profile { currents, widths, charge, shortest, watchdog } = profile;
    raw::Profile { currents, widths, charge, shortest, watchdog }
}

pub fn record(record: &BoxRecord) -> raw::BoxRecord {
    raw::BoxRecord {
        profile: profile(record.profile),
        clock: record.clock,
        core: raw::Core {
            holda: record.hold_a,
            holdb: record.hold_b,
            state: record.state,
            run: run(&record.run),
        },
        partial: partial(record.partial),
        ring: ring(record.ring),
    }
}

pub fn said(said: Said) -> raw::Said {
    raw::Said {
        answer: said.answer.into(),
        reply: said.reply.into(),
        a: released(said.a),
        b: released(said.b),
    }
}

fn run(run: &Run) -> raw::Run {
    raw::Run {
        list: init(run.list),
        position: run.position,
        cycle: run.cycle,
        watch: run.watch,
        waits: run.waits,
        settings: settings(run.settings),
        waiting: settings(run.waiting),
    }
}

fn partial(partial: PartialFrame) -> raw::PartialFrame {
    let PartialFrame { bytes, len, kept } = partial;
    raw::PartialFrame { bytes, kept: narrow(kept), len: narrow(len) }
}

fn released(pulse: Pulse) -> raw::Released {
    let Pulse { clock, channel, width, current } = pulse;
    raw::Released { clock, channel, width, current }
}

/// A size in the width that the library's record has for it.
#[inline(always)]
fn narrow<T: TryFrom<usize, Error = std::num::TryFromIntError>>(size: usize) -> T {
    size.try_into().expect("the independent machine's sizes came from a record")
}
