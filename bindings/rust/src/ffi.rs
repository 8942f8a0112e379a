//! The exports as the archives have them. A slice crosses as a pointer and a count. Written by tools/walks.py.

use crate::layout::{BufferState, GroupState, SkippedState};

extern "C" {
    pub fn lintelsong_buffer_set_up(b: *mut BufferState, messages: u64, accounts: u64) -> u8;
    pub fn lintelsong_buffer_add(b: *mut BufferState, address: &[u8; 32], hash: &[u8; 32], time: u64, kind: u8, special: u8, form: u8) -> u8;
    pub fn lintelsong_buffer_remove(b: *mut BufferState, names: *const u8, names_len: usize) -> u8;
    pub fn lintelsong_buffer_begin(b: *mut BufferState) -> u8;
    pub fn lintelsong_buffer_rollback(b: *mut BufferState) -> u8;
    pub fn lintelsong_buffer_commit(b: *mut BufferState) -> u8;
    pub fn lintelsong_buffer_counts(b: *mut BufferState, out: &mut [u64; 6]) -> u8;
    pub fn lintelsong_buffer_has_min_ext_chain_time(b: *mut BufferState) -> u8;
    pub fn lintelsong_buffer_min_ext_chain_time(b: *mut BufferState) -> u64;
    pub fn lintelsong_buffer_in_tx(b: *mut BufferState) -> u8;
    pub fn lintelsong_buffer_account_messages_count(b: *mut BufferState, name: &[u8; 32]) -> u64;
    pub fn lintelsong_buffer_is_filled_by_count(b: *mut BufferState, limit: u64) -> u8;
    pub fn lintelsong_buffer_is_filled_by_slots(b: *mut BufferState) -> u8;
    pub fn lintelsong_buffer_account_at(b: *mut BufferState, out: &mut [u8; 32], place: u16) -> u8;
    pub fn lintelsong_buffer_message_at(b: *mut BufferState, facts: &mut [u64; 4], address: &mut [u8; 32], hash: &mut [u8; 32], place: u16, position: u64) -> u8;
    pub fn lintelsong_skipped_set_up(s: *mut SkippedState) -> u8;
    pub fn lintelsong_skipped_len(s: *mut SkippedState) -> u64;
    pub fn lintelsong_skipped_contains(s: *mut SkippedState, name: &[u8; 32]) -> u8;
    pub fn lintelsong_skipped_account_at(s: *mut SkippedState, out: &mut [u8; 32], position: u64) -> u8;
    pub fn lintelsong_group_set_up(g: *mut GroupState, slots: u64) -> u8;
    pub fn lintelsong_group_counts(g: *mut GroupState, out: &mut [u64; 6]) -> u8;
    pub fn lintelsong_group_is_empty(g: *mut GroupState) -> u8;
    pub fn lintelsong_group_contains_account(g: *mut GroupState, name: &[u8; 32]) -> u8;
    pub fn lintelsong_group_check_is_filled(g: *mut GroupState, asked: u64, height: u64) -> u8;
    pub fn lintelsong_group_last_slot(g: *mut GroupState, out: &mut [u16; 1]) -> u8;
    pub fn lintelsong_group_display(g: *mut GroupState, out: *mut u8, out_len: usize) -> u64;
    pub fn lintelsong_group_slot_at(g: *mut GroupState, out: &mut [u64; 3], position: u64) -> u8;
    pub fn lintelsong_group_account_at(g: *mut GroupState, out: &mut [u8; 32], k: u64) -> u8;
    pub fn lintelsong_group_slot_account_at(g: *mut GroupState, out: &mut [u8; 32], position: u64, k: u64) -> u8;
    pub fn lintelsong_group_message_at(g: *mut GroupState, name: &[u8; 32], facts: &mut [u64; 4], address: &mut [u8; 32], hash: &mut [u8; 32], k: u64) -> u8;
    pub fn lintelsong_group_bucket_at(g: *mut GroupState, out: &mut [u16; 1], count: u64, k: u64) -> u8;
    pub fn lintelsong_group_join(left: *mut GroupState, right: *mut GroupState) -> u8;
    pub fn lintelsong_fill(b: *mut BufferState, g: *mut GroupState, s: *mut SkippedState, names: *const u8, names_len: usize, verdicts: *const u8, verdicts_len: usize, costs: *const u64, costs_len: usize, lts: *mut u64, lts_len: usize, hashes: *mut u8, hashes_len: usize, out: &mut [u64; 3], slots: u64, height: u64, cost: u64, filtered: u8, below: u64) -> u8;
}
