//! The functions.

use super::{
    Pulse, ReadConfig, ReadElectrode, ReadEmpty, ReadPacket, ReadResult, ReadVoltage, Weighed,
};
use crate::raw::Wrote;

extern "C" {
    pub(crate) fn yarrowbell_rehamove3_read(
        s: *const u8,
        s_length: usize,
        out: *mut u8,
        out_length: usize,
    ) -> ReadPacket;
    pub(crate) fn yarrowbell_rehamove3_read_ll_init(
        s: *const u8,
        s_length: usize,
        out: *mut u8,
        out_length: usize,
    ) -> ReadVoltage;
    pub(crate) fn yarrowbell_rehamove3_read_ll_init_ack(
        s: *const u8,
        s_length: usize,
        out: *mut u8,
        out_length: usize,
    ) -> ReadResult;
    pub(crate) fn yarrowbell_rehamove3_read_ll_channel_config(
        s: *const u8,
        s_length: usize,
        out: *mut u8,
        out_length: usize,
    ) -> ReadConfig;
    pub(crate) fn yarrowbell_rehamove3_read_ll_channel_config_ack(
        s: *const u8,
        s_length: usize,
        out: *mut u8,
        out_length: usize,
    ) -> ReadElectrode;
    pub(crate) fn yarrowbell_rehamove3_read_ll_stop(
        s: *const u8,
        s_length: usize,
        out: *mut u8,
        out_length: usize,
    ) -> ReadEmpty;
    pub(crate) fn yarrowbell_rehamove3_read_ll_stop_ack(
        s: *const u8,
        s_length: usize,
        out: *mut u8,
        out_length: usize,
    ) -> ReadResult;
    pub(crate) fn yarrowbell_rehamove3_write_ll_init(
        packet: u8,
        voltage: u8,
        out: *mut u8,
        out_length: usize,
    ) -> Wrote;
    pub(crate) fn yarrowbell_rehamove3_write_ll_init_ack(
        packet: u8,
        res: u8,
        out: *mut u8,
        out_length: usize,
    ) -> Wrote;
    pub(crate) fn yarrowbell_rehamove3_write_ll_channel_config(
        packet: u8,
        execution: u8,
        channel: u8,
        pulse: Pulse,
        out: *mut u8,
        out_length: usize,
    ) -> Wrote;
    pub(crate) fn yarrowbell_rehamove3_write_ll_channel_config_ack(
        packet: u8,
        res: u8,
        electrode: u8,
        out: *mut u8,
        out_length: usize,
    ) -> Wrote;
    pub(crate) fn yarrowbell_rehamove3_write_ll_stop(
        packet: u8,
        out: *mut u8,
        out_length: usize,
    ) -> Wrote;
    pub(crate) fn yarrowbell_rehamove3_write_ll_stop_ack(
        packet: u8,
        res: u8,
        out: *mut u8,
        out_length: usize,
    ) -> Wrote;
    pub(crate) fn yarrowbell_rehamove3_charge(pulse: Pulse) -> Weighed;
}
