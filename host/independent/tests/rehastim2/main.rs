//! The codec of ScienceMode2 packets against what source 000 and request 12 say outright.

mod answers;
mod checksum;
mod framing;
mod papers;
mod values;
