//! Signals that end a run.

use signal_hook::consts::{SIGHUP, SIGINT, SIGQUIT, SIGTERM, SIGXCPU, SIGXFSZ};
use signal_hook::flag;
use signal_hook::iterator::Signals;
use signal_hook::low_level::emulate_default_handler;
use std::sync::Arc;
use std::{fs, io, thread};

/// From people, shells and the system.
const ENDING: [i32; 5] = [SIGHUP, SIGINT, SIGQUIT, SIGTERM, SIGXCPU];

/// From now on this is done first when such a signal comes. The run then ends by that signal, as
/// whoever started it expects.
pub fn before_end(first: fn()) -> io::Result<()> {
    let ignored = ignored();
    let heeded = ENDING.into_iter().filter(|signal| ignored >> (signal - 1) & 1 == 0);
    let mut signals = Signals::new(heeded)?;
    thread::spawn(move || {
        for signal in signals.forever() {
            first();
            emulate_default_handler(signal).expect("it is one of those");
        }
    });
    // A file that becomes larger than is allowed is an error besides, and that is told.
    flag::register(SIGXFSZ, Arc::default())?;
    Ok(())
}

/// A bit for each signal that the run was started to ignore, as under `nohup`: it goes on so.
fn ignored() -> u64 {
    let status = fs::read_to_string("/proc/self/status").unwrap_or_default();
    let bits = status.lines().find_map(|line| line.strip_prefix("SigIgn:"));
    bits.and_then(|bits| u64::from_str_radix(bits.trim(), 16).ok()).unwrap_or(0)
}
