//! A session that commits nothing before a rollback: a commit was refused memory after it had taken a part of the
//! stores, and the memory with the rest was closed. The next session finds what was committed before. It is the only
//! test of its process, because all of that is refused memory meanwhile.

mod volumes;

use famsync::{Code, Options, Volume};
use std::ffi::c_void;
use std::fs;
use std::iter;
use volumes::make_volume;

const PAGES: u64 = 1500;
const LENGTH: u64 = PAGES * 4096;

/// `RLIMIT_AS` of Linux: the bytes of addresses that a process may have.
const ADDRESSES: i32 = 9;

#[repr(C)]
#[derive(Clone, Copy)]
struct Limit {
    now: u64,
    most: u64,
}

extern "C" {
    fn malloc(count: usize) -> *mut c_void;
    fn free(block: *mut c_void);
    fn getrlimit(which: i32, limit: *mut Limit) -> i32;
    fn setrlimit(which: i32, limit: *const Limit) -> i32;
}

fn set(limit: &Limit) {
    // Safety: the structure is the kernel's, and lives as long as the call.
    assert_eq!(unsafe { setrlimit(ADDRESSES, limit) }, 0);
}

/// Takes all memory that there is, in blocks with room for a page, but for some of them; `blocks` has room for them.
fn take_all_but(left: usize, blocks: &mut Vec<*mut c_void>) {
    // Safety: each block is given back once.
    blocks.extend(iter::from_fn(|| Some(unsafe { malloc(4200) }).filter(|block| !block.is_null())));
    let rest = blocks.len().saturating_sub(left);
    give_back(blocks.drain(rest..));
}

fn give_back(blocks: impl Iterator<Item = *mut c_void>) {
    // Safety: they came from `malloc`, and nobody has them any more.
    blocks.for_each(|block| unsafe { free(block) });
}

/// Stores to all pages; the commit gets memory for a part of them.
fn refused(volume: &mut Volume, byte: u8) {
    volume.memory_mut("a").unwrap().fill(byte);
    let (mut before, mut blocks) = (Limit { now: 0, most: 0 }, Vec::with_capacity(1 << 20));
    // Safety: the same.
    assert_eq!(unsafe { getrlimit(ADDRESSES, &mut before) }, 0);
    let pages: u64 = fs::read_to_string("/proc/self/statm").unwrap().split(' ').next().unwrap().parse().unwrap();
    set(&Limit { now: pages * 4096, ..before });
    take_all_but(300, &mut blocks);
    let answer = volume.commit();
    give_back(blocks.drain(..));
    set(&before);
    assert_eq!(answer.unwrap_err().code(), Code::NoMemory);
}

fn found(path: &std::path::Path) -> (u8, u8, u8) {
    let volume = Volume::open(path).unwrap();
    let (a, b) = (volume.memory("a").unwrap(), volume.memory("b").unwrap());
    (a[0], *a.last().unwrap(), b[0])
}

#[test]
fn memory_is_closed_after_a_part_was_taken() {
    let made = make_volume(5, PAGES + 1, &format!("a={LENGTH} b=5000"));
    let open = || Options::new().foreground(true).open(made.path()).unwrap();

    let mut volume = open();
    refused(&mut volume, 1);
    volume.commit().unwrap();
    volume.close().unwrap();
    assert_eq!(found(&made.path()), (1, 1, 0));

    let mut volume = open();
    refused(&mut volume, 2);
    volume.close_memory("a").unwrap();
    for _ in 0..2 {
        assert_eq!(volume.commit().unwrap_err().code(), Code::Torn);
        volume.memory_mut("b").unwrap()[0] = 3;
    }
    volume.rollback().unwrap();
    volume.memory_mut("b").unwrap()[0] = 4;
    volume.commit().unwrap();
    volume.close().unwrap();
    assert_eq!(found(&made.path()), (1, 1, 4));
}
