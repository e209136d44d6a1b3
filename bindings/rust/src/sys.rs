//! The functions and structs of `nrbpf.h`, version 2.7, as they stand there.

#![allow(missing_docs, non_camel_case_types)]

use std::ffi::{c_char, c_int, c_void};

pub const NRBPF_VERSION: u32 = 2_007;
pub const NRBPF_OK: u32 = 0;
pub const NRBPF_BUSY: u32 = 1;
pub const NRBPF_POSTED: u32 = 2;
pub const NRBPF_END: u32 = u32::MAX;
pub const NRBPF_MAP_ARRAY: u32 = 0;
pub const NRBPF_MAP_HASH: u32 = 1;

#[repr(C)]
pub struct nrbpf_store {
    _own: [u8; 0],
}

#[repr(C)]
pub struct nrbpf_session {
    _own: [u8; 0],
}

#[repr(C)]
pub struct nrbpf_lane {
    _own: [u8; 0],
}

#[repr(C)]
pub struct nrbpf_state {
    _own: [u8; 0],
}

#[repr(C)]
#[derive(Clone, Copy, Debug, Default)]
pub struct nrbpf_error {
    pub status: u32,
    pub inner: u32,
    pub line: u32,
    pub slot: u32,
}

#[repr(C)]
#[derive(Clone, Copy, Debug, Default)]
pub struct nrbpf_limits {
    pub key: u32,
    pub value: u32,
    pub entries: u64,
    pub bytes: u64,
    pub argument: u32,
}

#[repr(C)]
#[derive(Clone, Copy, Debug, Default)]
pub struct nrbpf_config {
    pub version: u32,
    pub nodes: u32,
    pub slots: u32,
    pub window: u32,
    pub limit: u32,
    pub spare: u32,
    pub limits: nrbpf_limits,
    pub long_bytes: u32,
}

#[repr(C)]
#[derive(Clone, Copy, Debug)]
pub struct nrbpf_file {
    pub name: *const c_char,
    pub name_len: usize,
    pub text: *const c_char,
    pub text_len: usize,
}

#[repr(C)]
#[derive(Clone, Copy, Debug)]
pub struct nrbpf_confined {
    pub maps: u16,
    pub mode: u32,
    pub argument_len: u32,
    pub bytes: *const c_void,
    pub len: usize,
}

#[repr(C)]
#[derive(Clone, Copy, Debug, Default)]
pub struct nrbpf_answer {
    pub point: u64,
    pub reply: u64,
}

#[repr(C)]
#[derive(Clone, Copy, Debug, Default)]
pub struct nrbpf_found {
    pub point: u64,
    pub is_there: u32,
}

#[repr(C)]
#[derive(Clone, Copy, Debug, Default)]
pub struct nrbpf_scanned {
    pub point: u64,
    pub count: u32,
    pub next: u32,
}

#[repr(C)]
#[derive(Clone, Copy, Debug)]
pub struct nrbpf_question {
    pub argument: *const c_void,
    pub len: usize,
    pub program: u16,
}

#[repr(C)]
#[derive(Clone, Copy, Debug, Default)]
pub struct nrbpf_outcome {
    pub point: u64,
    pub reply: u64,
    pub status: u32,
}

#[repr(C)]
#[derive(Clone, Copy, Debug, Default)]
pub struct nrbpf_map_facts {
    pub point: u64,
    pub keys: u64,
    pub entries: u64,
    pub kind: u32,
    pub key_len: u32,
    pub value_len: u32,
}

#[repr(C)]
#[derive(Clone, Copy, Debug)]
pub struct nrbpf_program_facts {
    pub point: u64,
    pub is_place: u32,
    pub is_there: u32,
    pub mode: u32,
    pub argument_len: u32,
    pub slots: u32,
    pub maps: u16,
    pub name: [c_char; 34],
}

impl Default for nrbpf_program_facts {
    fn default() -> nrbpf_program_facts {
        nrbpf_program_facts { point: 0, is_place: 0, is_there: 0, mode: 0, argument_len: 0, slots: 0, maps: 0, name: [0; 34] }
    }
}

#[repr(C)]
#[derive(Clone, Copy, Debug, Default)]
pub struct nrbpf_store_facts {
    pub nodes: u32,
    pub slots: u32,
    pub window: u32,
    pub limit: u32,
    pub spare: u32,
    pub maps: u32,
    pub programs: u32,
    pub long_bytes: u32,
}

#[repr(C)]
#[derive(Clone, Copy, Debug, Default)]
pub struct nrbpf_counts {
    pub completed: u64,
    pub appended: u64,
    pub kept: u64,
    pub tail: u64,
    pub lag: u64,
    pub updates: u64,
    pub waits: u64,
    pub batches: u64,
    pub batched: u64,
    pub largest: u64,
    pub node: u32,
}

pub type nrbpf_writer = extern "C" fn(to: *mut c_void, bytes: *const c_char, len: usize) -> c_int;

extern "C" {
    pub fn nrbpf_version() -> u32;
    pub fn nrbpf_status_text(status: u32) -> *const c_char;
    pub fn nrbpf_error_text(why: *const nrbpf_error, text: *mut c_char, room: usize) -> usize;
    pub fn nrbpf_config_init(config: *mut nrbpf_config, version: u32, nodes: u32, slots: u32) -> u32;
    pub fn nrbpf_open(
        config: *const nrbpf_config,
        manifest: *const c_char,
        manifest_len: usize,
        files: *const nrbpf_file,
        count: usize,
        out: *mut *mut nrbpf_store,
        why: *mut nrbpf_error,
    ) -> u32;
    pub fn nrbpf_open_on(
        config: *const nrbpf_config,
        manifest: *const c_char,
        manifest_len: usize,
        files: *const nrbpf_file,
        count: usize,
        state: *const nrbpf_state,
        out: *mut *mut nrbpf_store,
        why: *mut nrbpf_error,
    ) -> u32;
    pub fn nrbpf_close(store: *mut nrbpf_store) -> u32;
    pub fn nrbpf_close_into(store: *mut nrbpf_store, out: *mut *mut nrbpf_state) -> u32;
    pub fn nrbpf_program_number(store: *mut nrbpf_store, name: *const c_char, len: usize, out: *mut u16) -> u32;
    pub fn nrbpf_attach(store: *mut nrbpf_store, node: u32, out: *mut *mut nrbpf_session) -> u32;
    pub fn nrbpf_detach(session: *mut nrbpf_session) -> u32;
    pub fn nrbpf_update(session: *mut nrbpf_session, program: u16, argument: *const c_void, len: usize, out: *mut nrbpf_answer) -> u32;
    pub fn nrbpf_read(session: *mut nrbpf_session, program: u16, argument: *const c_void, len: usize, out: *mut nrbpf_answer) -> u32;
    pub fn nrbpf_install(
        session: *mut nrbpf_session,
        mode: u32,
        argument_len: u32,
        bytes: *const c_void,
        len: usize,
        out: *mut nrbpf_answer,
        why: *mut nrbpf_error,
    ) -> u32;
    pub fn nrbpf_try_update(session: *mut nrbpf_session, program: u16, argument: *const c_void, len: usize, out: *mut nrbpf_answer) -> u32;
    pub fn nrbpf_try_read(session: *mut nrbpf_session, program: u16, argument: *const c_void, len: usize, out: *mut nrbpf_answer) -> u32;
    pub fn nrbpf_try_install(
        session: *mut nrbpf_session,
        mode: u32,
        argument_len: u32,
        bytes: *const c_void,
        len: usize,
        out: *mut nrbpf_answer,
        why: *mut nrbpf_error,
    ) -> u32;
    pub fn nrbpf_install_within(
        session: *mut nrbpf_session,
        program: *const nrbpf_confined,
        out: *mut nrbpf_answer,
        why: *mut nrbpf_error,
    ) -> u32;
    pub fn nrbpf_try_install_within(
        session: *mut nrbpf_session,
        program: *const nrbpf_confined,
        out: *mut nrbpf_answer,
        why: *mut nrbpf_error,
    ) -> u32;
    pub fn nrbpf_poll(session: *mut nrbpf_session, out: *mut nrbpf_answer) -> u32;
    pub fn nrbpf_get(
        session: *mut nrbpf_session,
        map: u32,
        key: *const c_void,
        key_len: usize,
        value: *mut c_void,
        value_len: usize,
        out: *mut nrbpf_found,
    ) -> u32;
    pub fn nrbpf_try_get(
        session: *mut nrbpf_session,
        map: u32,
        key: *const c_void,
        key_len: usize,
        value: *mut c_void,
        value_len: usize,
        out: *mut nrbpf_found,
    ) -> u32;
    pub fn nrbpf_scan(
        session: *mut nrbpf_session,
        map: u32,
        from: u32,
        keys: *mut c_void,
        keys_room: usize,
        values: *mut c_void,
        values_room: usize,
        out: *mut nrbpf_scanned,
    ) -> u32;
    pub fn nrbpf_try_scan(
        session: *mut nrbpf_session,
        map: u32,
        from: u32,
        keys: *mut c_void,
        keys_room: usize,
        values: *mut c_void,
        values_room: usize,
        out: *mut nrbpf_scanned,
    ) -> u32;
    pub fn nrbpf_read_each(
        session: *mut nrbpf_session,
        questions: *const nrbpf_question,
        count: usize,
        replies: *mut u64,
        point: *mut u64,
        why: *mut nrbpf_error,
    ) -> u32;
    pub fn nrbpf_try_read_each(
        session: *mut nrbpf_session,
        questions: *const nrbpf_question,
        count: usize,
        replies: *mut u64,
        point: *mut u64,
        why: *mut nrbpf_error,
    ) -> u32;
    pub fn nrbpf_attach_lane(store: *mut nrbpf_store, node: u32, slots: u32, out: *mut *mut nrbpf_lane) -> u32;
    pub fn nrbpf_detach_lane(lane: *mut nrbpf_lane) -> u32;
    pub fn nrbpf_update_each(
        lane: *mut nrbpf_lane,
        calls: *const nrbpf_question,
        count: usize,
        outcomes: *mut nrbpf_outcome,
        why: *mut nrbpf_error,
    ) -> u32;
    pub fn nrbpf_try_update_each(
        lane: *mut nrbpf_lane,
        calls: *const nrbpf_question,
        count: usize,
        outcomes: *mut nrbpf_outcome,
        why: *mut nrbpf_error,
    ) -> u32;
    pub fn nrbpf_poll_each(lane: *mut nrbpf_lane, outcomes: *mut nrbpf_outcome) -> u32;
    pub fn nrbpf_map_info(session: *mut nrbpf_session, map: u32, out: *mut nrbpf_map_facts, size: usize) -> u32;
    pub fn nrbpf_try_map_info(session: *mut nrbpf_session, map: u32, out: *mut nrbpf_map_facts, size: usize) -> u32;
    pub fn nrbpf_program_info(session: *mut nrbpf_session, program: u16, out: *mut nrbpf_program_facts, size: usize) -> u32;
    pub fn nrbpf_try_program_info(session: *mut nrbpf_session, program: u16, out: *mut nrbpf_program_facts, size: usize) -> u32;
    pub fn nrbpf_store_info(store: *mut nrbpf_store, out: *mut nrbpf_store_facts, size: usize) -> u32;
    pub fn nrbpf_stats(session: *mut nrbpf_session, out: *mut nrbpf_counts, size: usize) -> u32;
    pub fn nrbpf_try_stats(session: *mut nrbpf_session, out: *mut nrbpf_counts, size: usize) -> u32;
    pub fn nrbpf_state_new(store: *mut nrbpf_store, out: *mut *mut nrbpf_state) -> u32;
    pub fn nrbpf_snapshot(session: *mut nrbpf_session, into: *mut nrbpf_state, point: *mut u64) -> u32;
    pub fn nrbpf_try_snapshot(session: *mut nrbpf_session, into: *mut nrbpf_state, point: *mut u64) -> u32;
    pub fn nrbpf_state_dump(state: *const nrbpf_state, write: nrbpf_writer, to: *mut c_void) -> u32;
    pub fn nrbpf_state_load(
        config: *const nrbpf_config,
        manifest: *const c_char,
        manifest_len: usize,
        files: *const nrbpf_file,
        count: usize,
        text: *const c_char,
        len: usize,
        out: *mut *mut nrbpf_state,
        why: *mut nrbpf_error,
    ) -> u32;
    pub fn nrbpf_state_free(state: *mut nrbpf_state);
}
