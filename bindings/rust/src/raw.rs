//! The C interface as include/nahuitepol.h declares it.

use crate::{Checked, Found, Occurrences, Searched, Tested, Written};

extern "C" {
    pub fn nahui_suffix(probe: *const u8, probe_len: usize, room: *mut u32, room_len: usize) -> u32;

    pub fn nahui_shift(probe: *const u8, probe_len: usize, room: *mut u32, room_len: usize) -> u32;

    pub fn nahui_tables(probe: *const u8, probe_len: usize, room: *mut u16, room_len: usize) -> u32;

    pub fn nahui_occurrence(probe: *const u8, probe_len: usize) -> Occurrences;

    pub fn nahui_plain(
        probe: *const u8,
        probe_len: usize,
        stream: *const u8,
        stream_len: usize,
        tables: *mut u16,
        tables_len: usize,
        positions: *mut u32,
        positions_len: usize,
    ) -> Searched;

    pub fn nahui_remember(
        probe: *const u8,
        probe_len: usize,
        stream: *const u8,
        stream_len: usize,
        tables: *mut u16,
        tables_len: usize,
        memory: *mut u32,
        memory_len: usize,
        positions: *mut u32,
        positions_len: usize,
    ) -> Searched;

    pub fn nahui_log_test(log: *const u8, log_len: usize) -> Tested;

    pub fn nahui_log_find(log: *const u8, log_len: usize, id: u32) -> Found;

    pub fn nahui_log_write(
        blocks: *const u8,
        blocks_len: usize,
        ids: *const u32,
        ids_len: usize,
        lengths: *const u32,
        lengths_len: usize,
        out: *mut u8,
        out_len: usize,
    ) -> Written;

    pub fn nahui_check(
        log: *const u8,
        log_len: usize,
        p: u32,
        tables: *mut u16,
        tables_len: usize,
        memory: *mut u32,
        memory_len: usize,
        result: *mut u32,
        result_len: usize,
    ) -> Checked;
}
