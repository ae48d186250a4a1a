//! A full disk refuses a commit, and the session goes on. The library is linked in, so it calls this program's
//! `fallocate`.
#![cfg(feature = "static")]

mod volumes;

use famsync::{Code, Error, Volume};
use std::sync::atomic::{AtomicBool, Ordering};
use volumes::make_volume;

const ENOSPC: i32 = 28;

static FULL: AtomicBool = AtomicBool::new(false);

extern "C" {
    fn __errno_location() -> *mut i32;
}

/// Fails on a full disk. Otherwise it leaves the blocks to the writes.
#[no_mangle]
pub extern "C" fn fallocate(_file: i32, _mode: i32, _offset: i64, _length: i64) -> i32 {
    if !FULL.load(Ordering::Relaxed) {
        return 0;
    }
    // Safety: it answers where this thread's errno is.
    unsafe { *__errno_location() = ENOSPC };
    -1
}

#[track_caller]
fn is_refused(answer: Result<u64, Error>) {
    let error = answer.unwrap_err();
    assert_eq!((error.code(), error.system().and_then(|system| system.raw_os_error())), (Code::NoSpace, Some(ENOSPC)));
    assert!(error.to_string().contains("the disk is full"), "{error}");
}

#[test]
fn a_full_disk() {
    let made = make_volume(5, 16, "a=40960");
    let mut volume = Volume::open(made.path()).unwrap();
    volume.memory_mut("a").unwrap()[5000] = 7;
    FULL.store(true, Ordering::Relaxed);
    is_refused(volume.commit());
    is_refused(volume.commit());
    assert_eq!((volume.acknowledged(), volume.memory("a").unwrap()[5000]), (0, 7));
    FULL.store(false, Ordering::Relaxed);
    assert_eq!(volume.commit().unwrap(), 1);
    FULL.store(true, Ordering::Relaxed);
    volume.memory_mut("a").unwrap()[9000] = 8;
    is_refused(volume.commit());
    volume.rollback().unwrap();
    assert_eq!((volume.memory("a").unwrap()[5000], volume.memory("a").unwrap()[9000]), (7, 0));
    volume.close().unwrap();
    assert_eq!(Volume::open(made.path()).unwrap().memory("a").unwrap()[5000], 7);
}
