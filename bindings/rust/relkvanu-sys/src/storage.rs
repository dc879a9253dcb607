// What include/relkvanu_storage.h says, made from it by bindings/generate: change the header, and run that.
use std::ffi::{c_char, c_int, c_void};

pub const RELKVANU_STORAGE_OK: c_int = 0;
pub const RELKVANU_STORAGE_BAD_ARGUMENT: c_int = 1;
pub const RELKVANU_STORAGE_NO_MEMORY: c_int = 2;
pub const RELKVANU_STORAGE_NOT_THERE: c_int = 3;
pub const RELKVANU_STORAGE_OTHER_JOB: c_int = 4;
pub const RELKVANU_STORAGE_PRESENT: c_int = 5;
pub const RELKVANU_STORAGE_ABSENT: c_int = 6;
pub const RELKVANU_STORAGE_NOT_EMPTY: c_int = 7;
pub const RELKVANU_STORAGE_ENDED: c_int = 8;
pub const RELKVANU_STORAGE_FAILED: c_int = 9;
pub const RELKVANU_STORAGE_UNDELETED: u8 = 0;
pub const RELKVANU_STORAGE_DELETED: u8 = 1;
pub const RELKVANU_STORAGE_MISSING: u8 = 2;
pub const RELKVANU_STORAGE_PAGE: usize = 1000;
pub const RELKVANU_STORAGE_RECOVER: u32 = 0;
pub const RELKVANU_STORAGE_NEW: u32 = 1;
pub const RELKVANU_STORAGE_MOST_AFFIX: usize = 200;

#[repr(C)]
#[derive(Clone, Copy, Debug, Default, PartialEq, Eq)]
pub struct relkvanu_storage_file {
    pub file: u64,
    pub bytes: u64,
}

#[repr(C)]
#[derive(Clone, Copy, Debug)]
pub struct relkvanu_storage {
    pub with: *mut c_void,
    pub check: Option<unsafe extern "C" fn(with: *mut c_void) -> c_int>,
    pub put: Option<unsafe extern "C" fn(with: *mut c_void, file: u64, contents: *const c_void, len: usize) -> c_int>,
    pub get: Option<
        unsafe extern "C" fn(with: *mut c_void, file: u64, contents: *mut c_void, room: usize, len: *mut u64) -> c_int,
    >,
    pub delete_files: Option<
        unsafe extern "C" fn(with: *mut c_void, files: *const u64, files_len: usize, outcomes: *mut u8) -> c_int,
    >,
    pub list: Option<
        unsafe extern "C" fn(
            with: *mut c_void,
            most: usize,
            page: relkvanu_storage_page,
            with_page: *mut c_void,
        ) -> c_int,
    >,
    pub reserved: [u64; 4],
}

#[repr(C)]
#[derive(Clone, Copy, Debug)]
pub struct relkvanu_storage_options {
    pub flags: u32,
    pub path: *const c_char,
    pub job: *const c_char,
    pub prefix: *const c_char,
    pub suffix: *const c_char,
    pub marker_name: *const c_char,
    pub marker_text: *const c_char,
    pub reserved: [u64; 4],
}

pub type relkvanu_storage_page =
    unsafe extern "C" fn(with: *mut c_void, files: *const relkvanu_storage_file, files_len: usize) -> bool;

extern "C" {
    pub fn relkvanu_storage_open_folder(
        storage: *mut relkvanu_storage,
        options: *const relkvanu_storage_options,
    ) -> c_int;
    pub fn relkvanu_storage_close_folder(storage: *mut relkvanu_storage);
    pub fn relkvanu_storage_open_task(
        storage: *mut relkvanu_storage,
        path: *const c_char,
        job: *const u64,
        epoch: u64,
    ) -> c_int;
    pub fn relkvanu_storage_close_task(storage: *mut relkvanu_storage);
}
