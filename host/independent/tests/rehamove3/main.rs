//! The codec of the RehaMove3's packets against what source 002 and request 13 say outright.

mod refused;

mod answers;
mod checksum;
mod damage;
mod framing;
mod lengths;
mod papers;
mod points;
mod pulses;
mod values;
