// What include/relkvanu_store.h says, made from it by bindings/generate: change the header, and run that.
use crate::storage::relkvanu_storage;
use crate::{relkvanu, relkvanu_answer, relkvanu_call, relkvanu_settings};
use std::ffi::{c_char, c_int, c_void};

pub const RELKVANU_STORE_OK: c_int = 0;
pub const RELKVANU_STORE_BAD_ARGUMENT: c_int = 1;
pub const RELKVANU_STORE_NO_MEMORY: c_int = 2;
pub const RELKVANU_STORE_IN_USE: c_int = 3;
pub const RELKVANU_STORE_ABSENT: c_int = 4;
pub const RELKVANU_STORE_PRESENT: c_int = 5;
pub const RELKVANU_STORE_NOT_A_STORE: c_int = 6;
pub const RELKVANU_STORE_DIFFERS: c_int = 7;
pub const RELKVANU_STORE_DAMAGED: c_int = 8;
pub const RELKVANU_STORE_STORAGE: c_int = 9;
pub const RELKVANU_STORE_CLOSED: c_int = 10;
pub const RELKVANU_STORE_FORKED: c_int = 11;
pub const RELKVANU_STORE_TIMED_OUT: c_int = 12;
pub const RELKVANU_STORE_NOT_NOW: c_int = 13;
pub const RELKVANU_STORE_STOPPED: c_int = 14;
pub const RELKVANU_STORE_NOT_PUT: c_int = 15;
pub const RELKVANU_STORE_NOT_RUNNING: c_int = 21;
pub const RELKVANU_STORE_NOT_DONE: c_int = 22;
pub const RELKVANU_STORE_JOB_STOPPED: c_int = 23;
pub const RELKVANU_STORE_NOT_STOPPED: c_int = 24;
pub const RELKVANU_STORE_FILE_LOST: c_int = 25;
pub const RELKVANU_STORE_FAILED: c_int = 16;
pub const RELKVANU_STORE_FULL: c_int = 17;
pub const RELKVANU_STORE_READ_ONLY: c_int = 18;
pub const RELKVANU_STORE_BUSY: c_int = 19;
pub const RELKVANU_STORE_OUT_OF_MEMORY: c_int = 20;
pub const RELKVANU_STORE_NOT_MADE: u32 = 100;
pub const RELKVANU_STORE_RECOVER: u32 = 0;
pub const RELKVANU_STORE_CREATE: u32 = 1;
pub const RELKVANU_STORE_CREATE_ONLY: u32 = 2;
pub const RELKVANU_STORE_ADOPT: u32 = 4;
pub const RELKVANU_STORE_EARLIER_IMAGE: u32 = 8;
pub const RELKVANU_STORE_BACKUP: u32 = 32;
pub const RELKVANU_STORE_MANIFESTS: u32 = 64;
pub const RELKVANU_STORE_CHECKSUMS: u32 = 128;
pub const RELKVANU_STORE_NOW: u64 = u64::MAX;
pub const RELKVANU_STORE_NO_IMAGES: u64 = u64::MAX;
pub const RELKVANU_STORE_MOST_CALLS: usize = 4096;
pub const RELKVANU_STORE_MESSAGE: usize = 512;
pub const RELKVANU_STORE_MOST_PAYLOAD: usize = 4096;
pub const RELKVANU_STORE_MOST_REASON: usize = 200;
pub const RELKVANU_STORE_MOST_ENDED: usize = 2200;
pub const RELKVANU_STORE_MOST_HISTORY: usize = 1000;
pub const RELKVANU_STORE_MOST_VERTICES: usize = 256;
pub const RELKVANU_STORE_END_TASKS: u32 = 1;
pub const RELKVANU_STORE_RESTORE: u32 = 2;
pub const RELKVANU_STORE_SWEEP: u32 = 3;
pub const RELKVANU_STORE_START_TASKS: u32 = 4;
pub const RELKVANU_STORE_DISCARD: u32 = 5;
pub const RELKVANU_STORE_MOST_STEPS: usize = 8;
pub const RELKVANU_STORE_CHECKPOINT: u32 = 1;
pub const RELKVANU_STORE_SAVEPOINT: u32 = 2;
pub const RELKVANU_STORE_COMPLETED: u32 = 1;
pub const RELKVANU_STORE_DECLINED: u32 = 2;
pub const RELKVANU_STORE_EXPIRED: u32 = 3;
pub const RELKVANU_STORE_DROPPED: u32 = 4;
pub const RELKVANU_STORE_PHASE_RUNNING: u32 = 0;
pub const RELKVANU_STORE_PHASE_STOPPING: u32 = 1;
pub const RELKVANU_STORE_PHASE_STOPPED: u32 = 2;
pub const RELKVANU_STORE_STOP_EXPIRED: u32 = 1;
pub const RELKVANU_STORE_STOP_DECLINED: u32 = 2;
pub const RELKVANU_STORE_STOP_RESTORED: u32 = 3;
pub const RELKVANU_STORE_STOP_CANCELLED: u32 = 4;
pub const RELKVANU_STORE_STOP_FAILED: u32 = 5;
pub const RELKVANU_STORE_ACCEPT_PUBLISHED: u32 = 1;
pub const RELKVANU_STORE_FILE_MISSING: u32 = 1;
pub const RELKVANU_STORE_FILE_LENGTH: u32 = 2;
pub const RELKVANU_STORE_FILE_CHANGED: u32 = 3;
pub const RELKVANU_STORE_FILE_UNREADABLE: u32 = 4;

/// Nobody looks into it.
#[repr(C)]
pub struct relkvanu_store {
    _private: [u8; 0],
}

/// Nobody looks into it.
#[repr(C)]
pub struct relkvanu_reads {
    _private: [u8; 0],
}

#[repr(C)]
#[derive(Clone, Copy, Debug)]
pub struct relkvanu_store_options {
    pub flags: u32,
    pub patience: u32,
    pub image_calls: u64,
    pub most_ahead: u64,
    pub storage: *const c_char,
    pub settings: relkvanu_settings,
    pub shape: *const u64,
    pub shape_len: usize,
    pub reserved: [u64; 4],
}

#[repr(C)]
#[derive(Clone, Copy, Debug)]
pub struct relkvanu_store_report {
    pub is_recovered: bool,
    pub settings_differ: bool,
    pub steps: [u32; 8],
    pub steps_len: usize,
    pub epoch: u64,
    pub job: [u64; 2],
    pub image_place: u64,
    pub replayed: u64,
    pub taken: u64,
    pub moment: u64,
    pub mode: relkvanu_answer,
    pub choice: relkvanu_answer,
    pub message: [c_char; 512],
    pub term: u64,
    pub next_name: u64,
    pub phase: u32,
    pub stop_failed: u32,
    pub savepoint: u64,
}

#[repr(C)]
#[derive(Clone, Copy, Debug)]
pub struct relkvanu_store_more {
    pub payload: *const c_void,
    pub payload_len: usize,
    pub bytes: u64,
    pub millis: u64,
    pub reason: *const c_char,
    pub reason_len: usize,
    pub ended: *mut u64,
    pub ended_room: usize,
    pub reserved: [u64; 4],
    pub ended_len: usize,
    pub kind: u32,
}

#[repr(C)]
#[derive(Clone, Copy, Debug)]
pub struct relkvanu_store_call {
    pub call: relkvanu_call,
    pub first: *const u64,
    pub first_len: usize,
    pub second: *const u64,
    pub second_len: usize,
    pub files: *mut u64,
    pub files_len: usize,
    pub more: *mut relkvanu_store_more,
    pub reserved: [u64; 1],
    pub answer: relkvanu_answer,
    pub choice: relkvanu_answer,
    pub place: u64,
    pub term: u64,
}

#[repr(C)]
#[derive(Clone, Copy, Debug, Default, PartialEq, Eq)]
pub struct relkvanu_store_completion {
    pub token: u64,
    pub status: c_int,
}

#[repr(C)]
#[derive(Clone, Copy, Debug)]
pub struct relkvanu_store_part {
    pub vertex: u16,
    pub index: u16,
    pub files: *const u64,
    pub files_len: usize,
    pub payload: *const c_void,
    pub payload_len: usize,
    pub bytes: u64,
    pub millis: u64,
}

#[repr(C)]
#[derive(Clone, Copy, Debug)]
pub struct relkvanu_store_loaded {
    pub id: u64,
    pub kind: u32,
    pub term: u64,
    pub lost: u64,
    pub shape_len: usize,
    pub shape: [u64; 256],
}

#[repr(C)]
#[derive(Clone, Copy, Debug)]
pub struct relkvanu_store_past {
    pub id: u64,
    pub kind: u32,
    pub outcome: u32,
    pub triggered: u64,
    pub ended: u64,
    pub acks: u64,
    pub first: u64,
    pub median: u64,
    pub p99: u64,
    pub slowest: u64,
    pub bytes: u64,
    pub millis: u64,
    pub reserved: [u64; 2],
    pub reason: [c_char; 208],
}

#[repr(C)]
#[derive(Clone, Copy, Debug, Default, PartialEq, Eq)]
pub struct relkvanu_store_job_phase {
    pub phase: u32,
    pub stop_failed: u32,
    pub savepoint: u64,
    pub term: u64,
    pub reserved: [u64; 2],
}

#[repr(C)]
#[derive(Clone, Copy, Debug, Default, PartialEq, Eq)]
pub struct relkvanu_store_record {
    pub id: u64,
    pub status: u32,
    pub is_savepoint: bool,
    pub is_of_job: bool,
    pub is_next: bool,
    pub written: u64,
    pub files: u64,
    pub bytes: u64,
    pub missing: u64,
    pub unknown: u64,
    pub changed: u64,
    pub reserved: [u64; 2],
}

#[repr(C)]
#[derive(Clone, Copy, Debug)]
pub struct relkvanu_store_recovered {
    pub record: u64,
    pub is_savepoint: bool,
    pub files: u64,
    pub bytes: u64,
    pub passed: u64,
    pub savepoints: u64,
    pub term: u64,
    pub next_name: u64,
    pub next_number: u64,
    pub reserved: [u64; 4],
    pub message: [c_char; 512],
}

#[repr(C)]
#[derive(Clone, Copy, Debug)]
pub struct relkvanu_store_carried {
    pub record: u64,
    pub is_savepoint: bool,
    pub files: u64,
    pub bytes: u64,
    pub reserved: [u64; 4],
    pub message: [c_char; 512],
}

#[repr(C)]
#[derive(Clone, Copy, Debug, Default, PartialEq, Eq)]
pub struct relkvanu_store_counts {
    pub commits: u64,
    pub calls: u64,
    pub largest: u64,
    pub images: u64,
    pub failed_images: u64,
    pub checkpoints: u64,
    pub failed_checkpoints: u64,
    pub retries: u64,
    pub swept: u64,
    pub unissued: u64,
    pub reserved: [u64; 2],
}

#[repr(C)]
#[derive(Clone, Copy, Debug, Default, PartialEq, Eq)]
pub struct relkvanu_store_measures {
    pub wal_bytes: u64,
    pub log_rows: u64,
    pub last_commit: u64,
    pub failed_deletions: u64,
    pub manifests: u64,
    pub failed_manifests: u64,
}

pub type relkvanu_store_each_part = unsafe extern "C" fn(with: *mut c_void, part: *const relkvanu_store_part) -> bool;

pub type relkvanu_store_delete =
    unsafe extern "C" fn(with: *mut c_void, files: *const u64, files_len: usize, is_gone: *mut u8);

pub type relkvanu_store_delete_some =
    unsafe extern "C" fn(with: *mut c_void, files: *const u64, files_len: usize, is_gone: *mut u8) -> bool;

pub type relkvanu_store_source = unsafe extern "C" fn(with: *mut c_void, to: *mut c_void, room: usize) -> i64;

pub type relkvanu_store_each_name = unsafe extern "C" fn(with: *mut c_void, name: *const c_char) -> bool;

pub type relkvanu_store_check_place = unsafe extern "C" fn(with: *mut c_void) -> c_int;

pub type relkvanu_store_put_named =
    unsafe extern "C" fn(with: *mut c_void, name: *const c_char, contents: *const c_void, contents_len: usize) -> c_int;

pub type relkvanu_store_remove_named = unsafe extern "C" fn(with: *mut c_void, name: *const c_char) -> c_int;

pub type relkvanu_store_list_named =
    unsafe extern "C" fn(with: *mut c_void, each: relkvanu_store_each_name, with_each: *mut c_void) -> c_int;

pub type relkvanu_store_each_record =
    unsafe extern "C" fn(with: *mut c_void, record: *const relkvanu_store_record) -> bool;

pub type relkvanu_store_each_fault =
    unsafe extern "C" fn(with: *mut c_void, record: u64, file: u64, fault: u32) -> bool;

extern "C" {
    pub fn relkvanu_store_open(
        store: *mut *mut relkvanu_store,
        path: *const c_char,
        options: *const relkvanu_store_options,
        report: *mut relkvanu_store_report,
    ) -> c_int;
    pub fn relkvanu_store_job(
        store: *mut relkvanu_store,
        settings: *mut relkvanu_settings,
        shape: *mut u64,
        shape_len: *mut usize,
    ) -> c_int;
    pub fn relkvanu_store_close(store: *mut relkvanu_store);
    pub fn relkvanu_store_calls(store: *mut relkvanu_store, calls: *mut relkvanu_store_call, calls_len: usize)
        -> c_int;
    pub fn relkvanu_store_ack_in(
        store: *mut relkvanu_store,
        term: u64,
        now: u64,
        id: u64,
        vertex: u16,
        index: u16,
        fresh: *const u64,
        fresh_len: usize,
        reused: *const u64,
        reused_len: usize,
        answer: *mut relkvanu_answer,
    ) -> c_int;
    pub fn relkvanu_store_ack_with(
        store: *mut relkvanu_store,
        term: u64,
        now: u64,
        id: u64,
        vertex: u16,
        index: u16,
        fresh: *const u64,
        fresh_len: usize,
        reused: *const u64,
        reused_len: usize,
        more: *mut relkvanu_store_more,
        answer: *mut relkvanu_answer,
    ) -> c_int;
    pub fn relkvanu_store_decline_with(
        store: *mut relkvanu_store,
        term: u64,
        now: u64,
        id: u64,
        vertex: u16,
        index: u16,
        more: *mut relkvanu_store_more,
        answer: *mut relkvanu_answer,
    ) -> c_int;
    pub fn relkvanu_store_reserve(
        store: *mut relkvanu_store,
        term: u64,
        count: u64,
        answer: *mut relkvanu_answer,
    ) -> c_int;
    pub fn relkvanu_store_forfeit(
        store: *mut relkvanu_store,
        term: u64,
        names: *const u64,
        names_len: usize,
        answer: *mut relkvanu_answer,
    ) -> c_int;
    pub fn relkvanu_store_submit(
        store: *mut relkvanu_store,
        calls: *mut relkvanu_store_call,
        calls_len: usize,
        token: u64,
    ) -> c_int;
    pub fn relkvanu_store_submit_stop_job(
        store: *mut relkvanu_store,
        call: *mut relkvanu_store_call,
        token: u64,
    ) -> c_int;
    pub fn relkvanu_store_submit_begin_job(
        store: *mut relkvanu_store,
        call: *mut relkvanu_store_call,
        token: u64,
    ) -> c_int;
    pub fn relkvanu_store_completed(
        store: *mut relkvanu_store,
        completions: *mut relkvanu_store_completion,
        len: usize,
    ) -> usize;
    pub fn relkvanu_store_descriptor(store: *const relkvanu_store) -> c_int;
    pub fn relkvanu_store_read(store: *mut relkvanu_store, handle: *mut *mut relkvanu) -> c_int;
    pub fn relkvanu_store_read_end(store: *mut relkvanu_store);
    pub fn relkvanu_store_look(store: *mut relkvanu_store, reads: *mut *mut relkvanu_reads) -> c_int;
    pub fn relkvanu_store_now(store: *const relkvanu_store) -> u64;
    pub fn relkvanu_store_next_tick(store: *mut relkvanu_store, wait: *mut u64) -> c_int;
    pub fn relkvanu_store_await_tick(store: *mut relkvanu_store, longest: u64, tick: *mut relkvanu_store_call)
        -> c_int;
    pub fn relkvanu_store_await_tick_with(
        store: *mut relkvanu_store,
        longest: u64,
        tick: *mut relkvanu_store_call,
        more: *mut relkvanu_store_more,
    ) -> c_int;
    pub fn relkvanu_store_load(
        store: *mut relkvanu_store,
        id: u64,
        loaded: *mut relkvanu_store_loaded,
        each: relkvanu_store_each_part,
        with: *mut c_void,
    ) -> c_int;
    pub fn relkvanu_store_origin(store: *const relkvanu_store, id: u64, job: *mut u64) -> bool;
    pub fn relkvanu_store_history(store: *mut relkvanu_store, past: *mut relkvanu_store_past, len: *mut usize)
        -> c_int;
    pub fn relkvanu_store_trigger(store: *mut relkvanu_store, call: *mut relkvanu_store_call) -> c_int;
    pub fn relkvanu_store_configure(
        store: *mut relkvanu_store,
        settings: *const relkvanu_settings,
        call: *mut relkvanu_store_call,
    ) -> c_int;
    pub fn relkvanu_store_stop_job(store: *mut relkvanu_store, call: *mut relkvanu_store_call) -> c_int;
    pub fn relkvanu_store_begin_job(store: *mut relkvanu_store, call: *mut relkvanu_store_call) -> c_int;
    pub fn relkvanu_store_phase(store: *mut relkvanu_store, phase: *mut relkvanu_store_job_phase) -> c_int;
    pub fn relkvanu_store_go_back(
        store: *mut relkvanu_store,
        checkpoint: u64,
        flags: u32,
        call: *mut relkvanu_store_call,
    ) -> c_int;
    pub fn relkvanu_store_advance(
        store: *mut relkvanu_store,
        term: u64,
        first_name: u64,
        call: *mut relkvanu_store_call,
    ) -> c_int;
    pub fn relkvanu_store_term(store: *mut relkvanu_store, answer: *mut relkvanu_answer) -> c_int;
    pub fn relkvanu_store_garbage(
        store: *mut relkvanu_store,
        files: *const u64,
        files_len: usize,
        garbage: *mut u64,
        unissued: *mut u64,
        answer: *mut relkvanu_answer,
    ) -> c_int;
    pub fn relkvanu_store_folder(store: *const relkvanu_store) -> c_int;
    pub fn relkvanu_store_discard(
        store: *mut relkvanu_store,
        batch: usize,
        delete_files: relkvanu_store_delete,
        with: *mut c_void,
    ) -> c_int;
    pub fn relkvanu_store_discard_for(
        store: *mut relkvanu_store,
        batch: usize,
        longest: u64,
        delete_files: relkvanu_store_delete_some,
        with: *mut c_void,
    ) -> c_int;
    pub fn relkvanu_store_put(store: *mut relkvanu_store, file: u64, contents: *const c_void, len: usize) -> c_int;
    pub fn relkvanu_store_put_from(
        store: *mut relkvanu_store,
        file: u64,
        source: relkvanu_store_source,
        with: *mut c_void,
    ) -> c_int;
    pub fn relkvanu_store_put_link(store: *mut relkvanu_store, file: u64, from: c_int, name: *const c_char) -> c_int;
    pub fn relkvanu_store_why(text: *mut c_char, text_len: usize) -> usize;
    pub fn relkvanu_store_delete_files(store: *mut c_void, files: *const u64, files_len: usize, is_gone: *mut u8);
    pub fn relkvanu_store_sweep(store: *mut relkvanu_store, left: *mut usize) -> c_int;
    pub fn relkvanu_store_storage(store: *mut relkvanu_store, storage: *mut relkvanu_storage) -> c_int;
    pub fn relkvanu_store_discard_storage(
        store: *mut relkvanu_store,
        batch: usize,
        storage: *const relkvanu_storage,
    ) -> c_int;
    pub fn relkvanu_store_sweep_storage(
        store: *mut relkvanu_store,
        storage: *const relkvanu_storage,
        left: *mut usize,
    ) -> c_int;
    pub fn relkvanu_store_stop(store: *mut relkvanu_store);
    pub fn relkvanu_store_backup(
        store: *mut relkvanu_store,
        path: *const c_char,
        message: *mut c_char,
        message_len: usize,
    ) -> c_int;
    pub fn relkvanu_store_keep_manifests(
        store: *mut relkvanu_store,
        check: relkvanu_store_check_place,
        put: relkvanu_store_put_named,
        remove: relkvanu_store_remove_named,
        list: relkvanu_store_list_named,
        with: *mut c_void,
    ) -> c_int;
    pub fn relkvanu_store_records(
        folder: *const c_char,
        each: relkvanu_store_each_record,
        with: *mut c_void,
        message: *mut c_char,
        message_len: usize,
    ) -> c_int;
    pub fn relkvanu_store_check_records(
        folder: *const c_char,
        each: relkvanu_store_each_record,
        each_fault: relkvanu_store_each_fault,
        with: *mut c_void,
        message: *mut c_char,
        message_len: usize,
    ) -> c_int;
    pub fn relkvanu_store_recover(
        path: *const c_char,
        folder: *const c_char,
        record: u64,
        recovered: *mut relkvanu_store_recovered,
    ) -> c_int;
    pub fn relkvanu_store_recover_listed(
        path: *const c_char,
        listing: *const c_char,
        record: u64,
        recovered: *mut relkvanu_store_recovered,
    ) -> c_int;
    pub fn relkvanu_store_export(
        folder: *const c_char,
        record: u64,
        to: *const c_char,
        carried: *mut relkvanu_store_carried,
    ) -> c_int;
    pub fn relkvanu_store_import(
        from: *const c_char,
        record: u64,
        path: *const c_char,
        folder: *const c_char,
        recovered: *mut relkvanu_store_recovered,
    ) -> c_int;
    pub fn relkvanu_store_claim(
        from: *const c_char,
        record: u64,
        path: *const c_char,
        folder: *const c_char,
        recovered: *mut relkvanu_store_recovered,
    ) -> c_int;
    pub fn relkvanu_store_put_back(
        backup: *const c_char,
        path: *const c_char,
        folder: *const c_char,
        recovered: *mut relkvanu_store_recovered,
    ) -> c_int;
    pub fn relkvanu_store_count(store: *mut relkvanu_store, counts: *mut relkvanu_store_counts);
    pub fn relkvanu_store_measure(
        store: *mut relkvanu_store,
        measures: *mut relkvanu_store_measures,
        measures_len: usize,
    );
    pub fn relkvanu_store_message(store: *mut relkvanu_store, text: *mut c_char, text_len: usize) -> usize;
}
