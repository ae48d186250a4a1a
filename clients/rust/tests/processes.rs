//! What ends a process, or takes one with limits: each is an ignored test of this program, run in a child. And that a
//! process which starts others may close a volume and open it again.

mod volumes;

use famsync::{Code, Error, Options, Volume};
use std::env;
use std::hint::black_box;
use std::os::unix::process::ExitStatusExt;
use std::process::{Command, Output};
use std::sync::atomic::{AtomicBool, Ordering};
use std::thread;
use volumes::{make_volume, Made};

const EFBIG: i32 = 27;
const SIGABRT: i32 = 6;
const SIGSEGV: i32 = 11;

/// Runs an ignored test in a process of its own, with a volume, after some commands of the shell: limits, or signals
/// that are ignored.
fn run_child(test: &str, made: &Made, shell: &str) -> Output {
    let script = format!("{shell}\nexec \"$0\" \"$@\"");
    let words = ["--ignored", "--exact", "--nocapture", "--test-threads=1", test];
    let mut command = Command::new("sh");
    command.args(["-c", &script]).arg(env::current_exe().unwrap()).args(words);
    command.env("FAMSYNC_TEST_VOLUME", made.path()).env("RUST_BACKTRACE", "0").output().unwrap()
}

/// The same, for one that has to succeed.
fn child_succeeds(test: &str, made: &Made, shell: &str) {
    let ran = run_child(test, made, shell);
    let said = String::from_utf8_lossy(&ran.stdout);
    assert!(ran.status.success() && said.contains("1 passed"), "{said}{}", String::from_utf8_lossy(&ran.stderr));
}

/// In the child, its volume.
fn opened() -> Volume {
    Volume::open(env::var_os("FAMSYNC_TEST_VOLUME").expect("this test is run by another one")).unwrap()
}

/// The same, with the handler installed, which has served a fault.
fn stored_to() -> Volume {
    let mut volume = opened();
    volume.memory_mut("a").unwrap()[0] = 1;
    volume
}

#[test]
fn a_device_that_fails() {
    let made = make_volume(5, 17, "a=8192");
    child_succeeds("writes_are_refused", &made, "trap '' XFSZ; ulimit -f 32");
    assert_eq!(Volume::open(made.path()).unwrap().memory("a").unwrap()[0], 0);
}

#[test]
#[ignore = "takes a process that may not write far into a file"]
fn writes_are_refused() {
    let volume = stored_to();
    is_too_large(volume.commit().unwrap_err(), Code::Device);
    is_too_large(volume.commit().unwrap_err(), Code::Broken);
    assert_eq!(volume.acknowledged(), 0);
    assert_eq!(volume.memory("a").unwrap()[0], 1);
    is_too_large(volume.close().unwrap_err(), Code::Device);
}

/// The error says how the system failed: a full disk, a broken one and want of memory aren't the same.
#[track_caller]
fn is_too_large(error: Error, code: Code) {
    assert_eq!((error.code(), error.system().and_then(|system| system.raw_os_error())), (code, Some(EFBIG)));
    assert!(error.to_string().contains("File too large"), "{error}");
}

#[test]
fn memory_that_is_refused() {
    let made = make_volume(5, 17, "a=1073741824");
    child_succeeds("memory_is_refused", &made, "ulimit -v 1500000");
}

#[test]
#[ignore = "takes a process that may have 1.5 GB"]
fn memory_is_refused() {
    let mut volume = opened();
    assert_eq!(volume.memory_mut("a").unwrap_err().code(), Code::NoMemory);
    volume.write("a", 1 << 29, b"hello").unwrap();
    assert_eq!(volume.commit().unwrap(), 1);
}

#[test]
fn a_volume_that_a_crash_left() {
    let made = make_volume(5, 17, "a=8192");
    let ran = run_child("commits_and_ends", &made, "ulimit -c 0");
    assert_eq!(ran.status.signal(), Some(SIGABRT), "{}", String::from_utf8_lossy(&ran.stderr));
    let read = || Options::new().readonly(true).open(made.path());
    assert_eq!(read().unwrap_err().code(), Code::NeedsOpening);
    Volume::open(made.path()).unwrap().close().unwrap();
    assert_eq!(read().unwrap().memory("a").unwrap()[0], 1);
}

#[test]
#[ignore = "ends its process"]
fn commits_and_ends() {
    let path = env::var_os("FAMSYNC_TEST_VOLUME").expect("this test is run by another one");
    let mut volume = Options::new().foreground(true).open(path).unwrap();
    volume.memory_mut("a").unwrap()[0] = 1;
    volume.commit().unwrap();
    std::process::abort();
}

extern "C" {
    fn fork() -> i32;
    fn waitpid(process: i32, status: *mut i32, options: i32) -> i32;
    fn _exit(status: i32) -> !;
}

#[test]
fn a_forked_process() {
    let made = make_volume(5, 17, "a=8192");
    child_succeeds("forks", &made, "");
    assert_eq!(Volume::open(made.path()).unwrap().memory("a").unwrap()[0], 1);
}

#[test]
#[ignore = "forks"]
fn forks() {
    let mut volume = stored_to();
    // Safety: the child calls nothing that could wait for another thread of this process.
    let child = unsafe { fork() };
    if child == 0 {
        volume.memory_mut("a").unwrap()[0] = 2;
        let is_forked = volume.commit().is_err_and(|error| error.code() == Code::Forked);
        let is_closed = volume.close().is_ok();
        unsafe { _exit(if is_forked && is_closed { 7 } else { 1 }) };
    }
    let mut status = 0;
    assert_eq!(unsafe { waitpid(child, &mut status, 0) }, child);
    assert_eq!(status, 7 << 8);
    assert_eq!(volume.commit().unwrap(), 1);
}

/// A child has the descriptors of its parent until it is another program.
#[test]
fn programs_that_are_started() {
    let made = make_volume(5, 17, "a=8192");
    let stopped = AtomicBool::new(false);
    thread::scope(|scope| {
        scope.spawn(|| {
            while !stopped.load(Ordering::Relaxed) {
                assert!(Command::new("true").status().unwrap().success());
            }
        });
        let opened: Result<Vec<_>, _> = (0..300).map(|_| Volume::open(made.path())?.close()).collect();
        stopped.store(true, Ordering::Relaxed);
        opened.unwrap();
    });
}

#[test]
fn a_stack_that_overflows() {
    let made = make_volume(5, 17, "a=8192");
    let ran = run_child("overflow", &made, "ulimit -c 0");
    let said = String::from_utf8_lossy(&ran.stderr);
    assert!(said.contains("thread 'deep'") && said.contains("has overflowed its stack"), "{said}");
    assert_eq!(ran.status.signal(), Some(SIGABRT));
}

#[test]
#[ignore = "ends its process"]
fn overflow() {
    #[allow(unconditional_recursion)]
    fn descend(depth: u64) -> u64 {
        black_box(descend(black_box(depth + 1)) + 1)
    }
    let volume = stored_to();
    let deep = thread::Builder::new().name("deep".into()).spawn(|| descend(0));
    black_box(deep.unwrap().join().unwrap());
    drop(volume);
}

#[test]
fn a_fault_of_nobody() {
    let made = make_volume(5, 17, "a=8192");
    let ran = run_child("fault", &made, "ulimit -c 0");
    assert_eq!(ran.status.signal(), Some(SIGSEGV), "{}", String::from_utf8_lossy(&ran.stderr));
}

#[test]
#[ignore = "ends its process"]
fn fault() {
    let volume = stored_to();
    // Safety: there is none; it ends the process.
    unsafe { black_box(64 as *mut u8).write_volatile(1) };
    drop(volume);
}
