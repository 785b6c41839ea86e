//! The names of all measurements. The program includes them: it says which there are before it has
//! the benchmark built.

/// Calls that are measured on some sides.
pub struct Group {
    pub name: &'static str,
    pub sides: &'static [&'static str],
    pub calls: &'static [&'static str],
}

const BOX: &[&str] = &["in place", "by value", "plain"];
const BOTH: &[&str] = &["library", "plain"];
const CODECS: &[&str] = &["library", "plain", "independent"];

const SHEETS: &[&str] = &[
    "1 pulse",
    "16 mixed",
    "455 pulses",
    "455 mixed",
    "4550 pulses",
    "455 pulses, and a bad record",
];

pub const GROUPS: [Group; 15] = [
    Group {
        name: "tick",
        sides: BOX,
        calls: &[
            "idle, empty ring",
            "running 8 channels, empty ring",
            "tripped, empty ring",
            "idle, full ring, 455 pulses",
            "running, full ring, 455 pulses",
            "idle, full ring, 461 mostly pulses",
            "running, full ring, 461 mostly pulses",
            "idle, full ring, 562 mixed",
            "running, full ring, 562 mixed",
        ],
    },
    Group {
        name: "byte",
        sides: BOX,
        calls: &[
            "Init, idle",
            "Update of 8 channels, running",
            "Single, idle",
            "stray, idle",
            "Update of 8 channels, running, full ring of pulses",
        ],
    },
    Group {
        name: "box readout",
        sides: BOTH,
        calls: &[
            "idle, empty ring, 0 bytes",
            "idle, 16 mixed, 117 bytes",
            "idle, full of pulses, 4095 bytes",
            "idle, full of a random mix, 4091 bytes",
            "running, full of pulses, 4095 bytes",
        ],
    },
    Group {
        name: "frame read",
        sides: BOTH,
        calls: &["Init", "Update of 1 channel", "Update of 8 channels", "Stop", "Single"],
    },
    Group {
        name: "frame write",
        sides: BOTH,
        calls: &["Init", "Update of 1 channel", "Update of 8 channels", "Stop", "Single"],
    },
    Group {
        name: "packet read, RehaStim2",
        sides: CODECS,
        calls: &[
            "Watchdog",
            "Init",
            "GetStimulationModeAck",
            "InitChannelListMode",
            "other, no data",
            "other, 15 bytes of data",
            "other, 30 bytes of data",
            "other, 60 bytes of data",
            "other, 60 bytes of data, all stuffed",
            "other, 60 bytes of data, behind 1000 of garbage",
            "wrong checksum, 60 bytes of data",
            "wrong checksum, 1000 bytes of data",
            "wrong checksum, 10000 bytes of data",
            "no packet in 1000 bytes",
            "no packet in 10000 bytes",
            "no packet in 10000 bytes, all starts",
        ],
    },
    Group {
        name: "packet write, RehaStim2",
        sides: CODECS,
        calls: &[
            "Watchdog",
            "Init",
            "GetStimulationModeAck",
            "InitChannelListMode",
            "InitChannelListMode, 5 bytes stuffed",
            "InitChannelListModeAck",
        ],
    },
    Group {
        name: "packet read, RehaMove3",
        sides: CODECS,
        calls: &[
            "Ll_init",
            "Ll_init_ack",
            "Ll_channel_config_ack",
            "Ll_stop",
            "Ll_stop_ack",
            "Ll_channel_config, 1 point",
            "Ll_channel_config, 3 points",
            "Ll_channel_config, 16 points",
            "Ll_channel_config, 16 points, 48 bytes stuffed",
            "other, no data",
            "other, 60 bytes of data",
            "other, 300 bytes of data",
            "other, 1188 bytes of data",
            "other, 594 bytes of data, all stuffed",
            "other, 1188 bytes of data, behind 1000 of garbage",
            "wrong checksum, 60 bytes of data",
            "wrong checksum, 1188 bytes of data",
            "wrong checksum, 10000 bytes of data",
            "no packet in 1000 bytes",
            "no packet in 10000 bytes",
            "no packet in 10000 bytes, all starts",
        ],
    },
    Group {
        name: "packet write, RehaMove3",
        sides: CODECS,
        calls: &[
            "Ll_init",
            "Ll_init_ack",
            "Ll_channel_config_ack",
            "Ll_stop",
            "Ll_stop_ack",
            "Ll_channel_config, 1 point",
            "Ll_channel_config, 3 points",
            "Ll_channel_config, 16 points",
            "Ll_channel_config, 16 points, 48 bytes stuffed",
        ],
    },
    Group {
        name: "ring push",
        sides: BOTH,
        calls: &[
            "kind 01, drops none",
            "kind 01, drops none, round the end",
            "kind 01, drops one 01",
            "kind 01, drops one 01, round the end",
            "kind 02, drops two 03",
            "kind 02, drops two 03, round the end",
            "run of kind 01, capacity 4096",
            "run of kind 02, capacity 4096",
            "run of kind 03, capacity 4096",
            "run of mixed kinds, capacity 4096",
            "run of kind 01, capacity 16",
        ],
    },
    Group {
        name: "ring split",
        sides: BOTH,
        calls: &[
            "1 mixed",
            "4 mixed",
            "16 mixed",
            "64 mixed",
            "256 mixed",
            "512 mixed",
            "16 of kind 03",
            "64 of kind 03",
            "256 of kind 03",
            "680 of kind 03",
            "64 mixed, another order each call",
        ],
    },
    Group {
        name: "ring of 64 records",
        sides: BOTH,
        calls: &[
            "capacity 576",
            "capacity 1024",
            "capacity 4096",
            "buffer of 4 KiB",
            "buffer of 64 KiB",
            "buffer of 1 MiB",
            "start at 500",
            "start at 800, round the end",
            "start at 1023, round the end",
            "bodies of 00",
            "bodies of FF",
            "kind 01 alone, 7 bytes",
            "kind 02 alone, 9 bytes",
            "kind 03 alone, 6 bytes",
        ],
    },
    Group {
        name: "ring readout",
        sides: BOTH,
        calls: &[
            "1 mixed, 7 bytes",
            "16 mixed, 117 bytes",
            "128 mixed, 940 bytes",
            "512 mixed, 3756 bytes",
            "512 mixed, 3756 bytes, round the end",
        ],
    },
    Group { name: "sheet write", sides: CODECS, calls: SHEETS },
    Group { name: "sheet read", sides: CODECS, calls: SHEETS },
];

impl Group {
    /// The whole names, as criterion has them.
    pub fn names(&self) -> impl Iterator<Item = String> + '_ {
        let name = |side, call| format!("{}/{side}/{call}", self.name);
        self.sides.iter().flat_map(move |side| self.calls.iter().map(move |call| name(side, call)))
    }
}
