//! The calls of `clients/c/famsync.h`.

use std::ffi::{c_char, c_int, c_uint, c_void};

/// A session.
#[repr(C)]
pub struct Famsync {
    _private: [u8; 0],
}

/// The plain memory of a file.
#[repr(C)]
pub struct FamsyncMemory {
    _private: [u8; 0],
}

#[repr(C)]
pub struct FamsyncOptions {
    pub size: usize,
    pub trust: c_int,
    pub frames: c_uint,
    pub copies: c_uint,
    pub foreground: c_int,
    pub message: *mut c_char,
    pub message_size: usize,
    pub wait_ms: c_uint,
    pub readonly: c_int,
    pub resident: c_int,
    pub budget: usize,
    pub tracking: c_int,
    pub fixed: c_int,
}

#[repr(C)]
pub struct FamsyncNewFile {
    pub name: *const c_char,
    pub length: u64,
    pub capacity: u64,
}

#[repr(C)]
pub struct FamsyncPlan {
    pub size: usize,
    pub layout: c_uint,
    pub files: c_uint,
    pub file: *const FamsyncNewFile,
    pub preallocate: c_int,
    pub message: *mut c_char,
    pub message_size: usize,
    pub log: c_uint,
    pub key: u64,
}

#[repr(C)]
#[derive(Default)]
pub struct FamsyncStat {
    pub size: usize,
    pub commits: u64,
    pub frames: u64,
    pub staged: u64,
    pub unwritten: u64,
    pub reads: u64,
    pub writes: u64,
    pub syncs: u64,
    pub bytes_written: u64,
    pub memory: u64,
}

#[repr(C)]
#[derive(Default)]
pub struct FamsyncVolumeInfo {
    pub size: usize,
    pub layout: u64,
    pub blocks: u64,
    pub files: u64,
    pub log: u64,
    pub log_used: u64,
    pub frames: u64,
    pub readonly: u64,
}

pub const FAMSYNC_OK: c_int = 0;
pub const FAMSYNC_TRACK_SIGNALS: c_int = 0;
pub const FAMSYNC_TRACK_KERNEL: c_int = 1;

extern "C" {
    pub fn famsync_version() -> *const c_char;
    pub fn famsync_format(volume: *const c_char, plan: *const FamsyncPlan) -> c_int;
    pub fn famsync_open(volume: *const c_char, options: *const FamsyncOptions, handle: *mut *mut Famsync) -> c_int;
    pub fn famsync_close(handle: *mut Famsync) -> c_int;
    pub fn famsync_files(handle: *const Famsync) -> c_uint;
    pub fn famsync_file_name(handle: *const Famsync, file: c_uint) -> *const c_char;
    pub fn famsync_file_length(handle: *const Famsync, file: c_uint) -> u64;
    pub fn famsync_capacity(handle: *const Famsync, file: c_uint) -> u64;
    pub fn famsync_frames(handle: *const Famsync) -> c_uint;
    pub fn famsync_setlength(handle: *mut Famsync, file: *const c_char, length: u64) -> c_int;
    pub fn famsync_read(
        handle: *mut Famsync,
        file: c_uint,
        offset: u64,
        bytes: *mut c_void,
        count: usize,
        done: *mut usize,
    ) -> c_int;
    pub fn famsync_write(
        handle: *mut Famsync,
        file: c_uint,
        offset: u64,
        bytes: *const c_void,
        count: usize,
        done: *mut usize,
    ) -> c_int;
    pub fn famsync_msync(handle: *mut Famsync, mark: *mut u64) -> c_int;
    pub fn famsync_rollback(handle: *mut Famsync) -> c_int;
    pub fn famsync_begin(handle: *mut Famsync) -> c_int;
    pub fn famsync_end(handle: *mut Famsync) -> c_int;
    pub fn famsync_transaction_begin(handle: *mut Famsync, transaction: *mut u64) -> c_int;
    pub fn famsync_transaction_commit(handle: *mut Famsync, transaction: u64, mark: *mut u64) -> c_int;
    pub fn famsync_transaction_rollback(handle: *mut Famsync, transaction: u64) -> c_int;
    pub fn famsync_acknowledged(handle: *mut Famsync) -> u64;
    pub fn famsync_strerror(code: c_int) -> *const c_char;
    pub fn famsync_error(handle: *const Famsync) -> *const c_char;
    pub fn famsync_stat(handle: *mut Famsync, stat: *mut FamsyncStat) -> c_int;
    pub fn famsync_volume_info(handle: *mut Famsync, info: *mut FamsyncVolumeInfo) -> c_int;
    pub fn famsync_backup(handle: *mut Famsync, descriptor: c_int) -> c_int;
    pub fn famsync_memory_open(handle: *mut Famsync, file: *const c_char, memory: *mut *mut FamsyncMemory) -> c_int;
    pub fn famsync_memory_open_at(
        handle: *mut Famsync,
        file: *const c_char,
        address: *mut c_void,
        memory: *mut *mut FamsyncMemory,
    ) -> c_int;
    pub fn famsync_memory_at(memory: *const FamsyncMemory) -> *mut c_void;
    pub fn famsync_memory_length(memory: *const FamsyncMemory) -> usize;
    pub fn famsync_memory_dirty(memory: *const FamsyncMemory) -> usize;
    pub fn famsync_memory_touch(memory: *mut FamsyncMemory, offset: usize, count: usize) -> c_int;
    pub fn famsync_memory_close(memory: *mut FamsyncMemory) -> c_int;
}
