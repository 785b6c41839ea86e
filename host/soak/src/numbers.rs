//! The library's numbers in the records of the independent machine.

use independent::plain::machine as plain;
use independent::{Init, Part, Ring, Setting};
use yarrowbell::raw;

pub fn part(at: raw::Part) -> Part {
    Part { offset: at.offset, size: at.size }
}

pub fn profile(profile: raw::Profile) -> plain::Profile {
    let raw::Profile { currents, widths, charge, shortest, watchdog } = profile;
    plain::Profile { currents, widths, charge, shortest, watchdog }
}

/// The library's record for the independent machine.
pub fn given(record: &raw::BoxRecord) -> plain::BoxRecord {
    let raw::BoxRecord { profile: limits, clock, core, partial, ring } = *record;
    let raw::Core { holda, holdb, state, run } = core;
    let raw::Init { factor, stim, lf, group, main } = run.list;
    let setting = |one: raw::Setting| Setting {
        mode: one.mode,
        pulse_width: one.width,
        pulse_current: one.current,
    };
    plain::BoxRecord {
        profile: profile(limits),
        clock,
        hold_a: holda,
        hold_b: holdb,
        state,
        run: plain::Run {
            list: Init {
                n_factor: factor,
                channel_stim: stim,
                channel_lf: lf,
                group_time: group,
                main_time: main,
            },
            settings: run.settings.map(setting),
            waits: run.waits,
            waiting: run.waiting.map(setting),
            position: run.position,
            cycle: run.cycle,
            watch: run.watch,
        },
        partial: plain::PartialFrame {
            bytes: partial.bytes,
            len: partial.len.into(),
            kept: partial.kept.into(),
        },
        ring: Ring {
            capacity: ring.capacity as usize,
            start: ring.start as usize,
            used: ring.used as usize,
        },
    }
}
