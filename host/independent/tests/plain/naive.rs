//! Sentences of document 01 about the box, each by itself.

use independent::plain::machine::{BoxRecord, Pulse, Run};
use independent::{Init, Setting};

/// The channels of a list, counted from 1.
fn listed(list: &Init) -> Vec<u32> {
    (1..=8).filter(|channel| list.channel_stim >> (channel - 1) & 1 == 1).collect()
}

/// Whether a channel is of module B.
fn of_b(channel: u32) -> bool {
    channel >= 5
}

fn t1(list: &Init) -> u32 {
    5 * u32::from(list.main_time) + 10
}

fn t2(list: &Init) -> u32 {
    5 * u32::from(list.group_time) + 15
}

/// The pulses due at a run's position, A's before B's.
pub fn due(run: &Run, clock: u32) -> Vec<Pulse> {
    let mut due = Vec::new();
    for channel in listed(&run.list) {
        let below = listed(&run.list)
            .iter()
            .filter(|&&other| of_b(other) == of_b(channel) && other < channel)
            .count();
        let slot = 15 * below as u32 + if of_b(channel) { 6 } else { 0 };
        let setting = run.settings[channel as usize - 1];
        let low = run.list.channel_lf >> (channel - 1) & 1 == 1;
        let turn = (u64::from(run.cycle) + 1) % (u64::from(run.list.n_factor) + 1) == 0;
        let silent = setting.pulse_width == 0 || setting.pulse_current == 0;
        for p in 0..=u32::from(setting.mode) {
            let now = u32::from(run.position) == slot + p * t2(&run.list);
            if now && (turn || !low) && !silent {
                due.push(Pulse {
                    clock,
                    channel: channel as u8,
                    width: setting.pulse_width,
                    current: setting.pulse_current,
                });
            }
        }
    }
    due
}

fn setting_good(record: &BoxRecord, index: usize, setting: &Setting) -> bool {
    let (width, current) = (u32::from(setting.pulse_width), u32::from(setting.pulse_current));
    let list = &record.run.list;
    let n = u32::from(setting.mode) + 1;
    setting.mode <= 2
        && (width == 0 || (10..=500).contains(&width))
        && current <= 127
        && current <= record.profile.currents[index].into()
        && width <= record.profile.widths[index].into()
        && current * width <= record.profile.charge
        && t1(list) >= n * t2(list) + 15
        && (listed(list).contains(&(index as u32 + 1)) || *setting == Setting::default())
}

fn run_good(record: &BoxRecord) -> bool {
    let run = &record.run;
    if record.state != 1 {
        return *run == Run::default();
    }
    let list = &run.list;
    let (b, a): (Vec<u32>, Vec<u32>) = listed(list).into_iter().partition(|&channel| of_b(channel));
    list.n_factor <= 7
        && list.channel_stim != 0
        && (3..=29).contains(&list.group_time)
        && (4..=2045).contains(&list.main_time)
        && t2(list) >= 15 * a.len().max(b.len()) as u32
        && t1(list) >= t2(list) + 15
        && t1(list) >= record.profile.shortest
        && (0..8).all(|index| setting_good(record, index, &run.settings[index]))
        && (0..8).all(|index| setting_good(record, index, &run.waiting[index]))
        && (run.waits == 1 || run.waits == 0 && run.waiting == [Setting::default(); 8])
        && u32::from(run.position) < t1(list)
        && run.cycle <= record.clock
        && run.watch < record.profile.watchdog
}

fn partial_good(record: &BoxRecord) -> bool {
    let partial = &record.partial;
    if partial.len == 0 {
        return partial.kept == 0 && partial.bytes == [0; 25];
    }
    let own = match (partial.bytes[0], record.state) {
        (0x80..=0x9F, _) => vec![6],
        (0xA0..=0xBF, 1) => vec![1 + 3 * listed(&record.run.list).len()],
        (0xA0..=0xBF, 2) => vec![4, 7, 10, 13, 16, 19, 22, 25],
        (0xE0..=0xFF, _) => vec![4],
        _ => vec![],
    };
    own.contains(&partial.kept)
        && partial.len < partial.kept
        && partial.bytes[1..partial.len].iter().all(|&byte| byte < 0x80)
        && partial.bytes[partial.len..].iter().all(|&byte| byte == 0)
}

/// "A box record is good if each number is in its range here [..]".
pub fn good(record: &BoxRecord) -> bool {
    let profile = &record.profile;
    let ring = &record.ring;
    profile.currents.iter().all(|current| *current <= 127)
        && profile.widths.iter().all(|width| *width <= 500)
        && profile.charge <= 63_500
        && (30..=10_235).contains(&profile.shortest)
        && (1..=600_000).contains(&profile.watchdog)
        && record.hold_a <= 15
        && record.hold_b <= 15
        && record.state <= 2
        && (16..=4_096).contains(&ring.capacity)
        && ring.start < ring.capacity
        && ring.used <= ring.capacity
        && run_good(record)
        && partial_good(record)
}
