//! Codes and their words. `Device`, `Broken`, `NoMemory` and `Forked` are tried in `processes.rs`, those of accesses
//! and of commits where these are. Not made is `Replaced`, which takes another process that renames without end.

mod volumes;

use famsync::{Code, Error, Options, Volume};
use std::fs::{self, OpenOptions};
use std::os::unix::fs::FileExt;
use std::thread;
use std::time::{Duration, Instant};
use volumes::make_volume;

/// The code of a call that is refused, and whether its error has words.
#[track_caller]
fn code<T>(answer: Result<T, Error>) -> Code {
    let error = answer.err().expect("the call is to be refused");
    assert!(!error.to_string().is_empty() && error.to_string() != "unknown code", "{error:?}");
    error.code()
}

#[test]
fn arguments() {
    let made = make_volume(5, 17, "a=8192");
    assert_eq!(code(Volume::open("")), Code::Argument);
    assert_eq!(code(Volume::open("a\0b")), Code::Argument);
    let mut volume = Volume::open(made.path()).unwrap();
    assert_eq!(code(volume.touch("a", 8193..)), Code::Argument);
    assert_eq!(code(volume.touch("a", ..8193)), Code::Argument);
    assert_eq!(code(volume.touch("b", ..)), Code::NoFile);
}

/// The text of the error of a call that is refused.
#[track_caller]
fn text<T>(answer: Result<T, Error>) -> String {
    answer.err().expect("the call is to be refused").to_string()
}

#[test]
fn texts() {
    let made = make_volume(5, 8, "a=65536 b=8192/40000");
    let mut volume = Volume::open(made.path()).unwrap();
    let touched = "famsync_memory_touch: offset 8000 with 193 bytes ends past the 8192 bytes of \"b\"";
    assert_eq!(text(volume.touch("b", 8000..8193)), touched);
    let written = "famsync_write: offset 65500 with 100 bytes ends past the 65536 bytes of \"a\"";
    assert_eq!(text(volume.write("a", 65500, &[1; 100])), written);
    volume.memory_mut("a").unwrap()[..40000].fill(1);
    let refused = volume.commit().unwrap_err();
    let too_many = "famsync_msync: this commit has 10 pages; one commit can have at most 7";
    assert_eq!((refused.code(), refused.to_string().as_str()), (Code::NoFrame, too_many));
    assert_eq!(text(Volume::open("a\0b")), "a path has no null byte");
    assert_eq!(text(Volume::open("")), "famsync_open: the path is empty");
}

#[test]
fn names_of_files() {
    let mut volume = Volume::open(make_volume(5, 17, "a=8192").path()).unwrap();
    let error = volume.memory("b").unwrap_err();
    assert_eq!((error.code(), error.to_string()), (Code::NoFile, "the volume has no file \"b\"".into()));
    for name in ["", "a\0", "A", "aa"] {
        assert_eq!(code(volume.memory_mut(name)), Code::NoFile);
        assert_eq!(code(volume.words(name)), Code::NoFile);
        assert_eq!(code(volume.dirty(name)), Code::NoFile);
        assert_eq!(code(volume.close_memory(name)), Code::NoFile);
        assert_eq!(code(volume.set_length(name, 1)), Code::NoFile);
        assert_eq!(code(volume.read(name, 0, &mut [0])), Code::NoFile);
        assert_eq!(code(volume.write(name, 0, &[0])), Code::NoFile);
    }
    assert_eq!(code(volume.memories_mut(["a", "a"])), Code::Overlap);
    assert_eq!(code(volume.memories_mut(["a", "b"])), Code::NoFile);
}

#[test]
fn other_files() {
    let made = make_volume(5, 17, "a=8192");
    let error = Volume::open(made.beside("nowhere")).unwrap_err();
    assert_eq!(error.code(), Code::System);
    assert_eq!(error.system().map(|system| system.kind()), Some(std::io::ErrorKind::NotFound));
    assert!(error.to_string().contains("nowhere\": No such file"), "{error}");
    assert_eq!(code(Volume::open("/dev/null")), Code::NotRegular);
    assert_eq!(code(Volume::open(made.beside("."))), Code::NotRegular);
    fs::hard_link(made.path(), made.beside("other")).unwrap();
    assert_eq!(code(Volume::open(made.path())), Code::Names);
}

#[test]
fn layouts_with_journals() {
    let made = make_volume(5, 17, "a=8192");
    for layout in 1..=4 {
        let mut bytes = format!("FAMSYNC{layout}").into_bytes();
        bytes.resize(12288, 0);
        fs::write(made.path(), &bytes).unwrap();
        let error = Volume::open(made.path()).unwrap_err();
        assert_eq!(error.code(), Code::Layout);
        let said = format!("this volume has layout {layout}; copy it with `famsync migrate --layout 5 OLD NEW`");
        assert!(error.to_string().contains(&said), "{error}");
        assert_eq!(code(Options::new().readonly(true).open(made.path())), Code::Layout);
        assert!(fs::read(made.path()).unwrap() == bytes);
    }
}

#[test]
fn in_use() {
    let made = make_volume(5, 17, "a=8192");
    let volume = Volume::open(made.path()).unwrap();
    let error = Volume::open(made.path()).unwrap_err();
    assert_eq!(error.code(), Code::InUse);
    assert!(error.to_string().contains("v.img\": the volume is open already"), "{error}");
    drop(volume);
    Volume::open(made.path()).unwrap().close().unwrap();
    Volume::open(made.path()).unwrap();
}

#[test]
fn waiting() {
    let made = make_volume(5, 17, "a=8192");
    let volume = Volume::open(made.path()).unwrap();
    let open = |wait| Options::new().wait(Duration::from_millis(wait)).open(made.path());
    let began = Instant::now();
    assert_eq!(code(open(100)), Code::InUse);
    assert!(began.elapsed() > Duration::from_millis(90));
    thread::scope(|scope| {
        scope.spawn(|| {
            thread::sleep(Duration::from_millis(100));
            drop(volume);
        });
        open(60_000).unwrap();
    });
}

#[test]
fn sessions_that_only_read() {
    let made = make_volume(5, 16, "a=8192");
    let read = || Options::new().readonly(true).open(made.path());
    let mut volume = Volume::open(made.path()).unwrap();
    volume.memory_mut("a").unwrap()[0] = 7;
    volume.commit().unwrap();
    assert_eq!(code(read()), Code::InUse);
    drop(volume);
    let (mut one, two) = (read().unwrap(), read().unwrap());
    assert_eq!((one.memory("a").unwrap()[0], two.memory("a").unwrap()[0]), (7, 7));
    assert_eq!(code(Volume::open(made.path())), Code::InUse);
    assert_eq!(code(one.commit()), Code::ReadOnly);
    assert_eq!(code(one.memory_mut("a")), Code::ReadOnly);
    assert_eq!(code(one.words("a")), Code::ReadOnly);
    assert_eq!(code(one.touch("a", ..)), Code::ReadOnly);
    assert_eq!(code(one.set_length("a", 1)), Code::ReadOnly);
    one.close_memory("a").unwrap();
    assert_eq!(code(one.write("a", 0, &[1])), Code::ReadOnly);
    assert_eq!(one.read("a", 0, &mut [0; 3]).unwrap(), 3);
    drop((one, two));
    Volume::open(made.path()).unwrap();
}

#[test]
fn the_version() {
    assert_eq!(famsync::version().trim_end_matches(" (core not proved)"), env!("CARGO_PKG_VERSION"));
}

#[test]
fn spoilt_volumes() {
    let made = make_volume(5, 17, "a=8192");
    let file = OpenOptions::new().write(true).open(made.path()).unwrap();
    file.set_len(20 * 4096).unwrap();
    assert_eq!(code(Volume::open(made.path())), Code::Damaged);
    file.write_all_at(b"other", 0).unwrap();
    assert_eq!(code(Volume::open(made.path())), Code::NotAVolume);
}

#[test]
fn suspect_volumes() {
    let made = make_volume(5, 17, "a=8192");
    fs::write(made.beside("v.img.suspect"), "").unwrap();
    let error = Volume::open(made.path()).unwrap_err();
    assert_eq!(error.code(), Code::Suspect);
    assert!(error.to_string().contains("v.img.suspect\" exists because a sync failed"), "{error}");
    drop(Options::new().trust(true).open(made.path()).unwrap());
    Volume::open(made.path()).unwrap();
}

#[test]
fn shapes() {
    let made = make_volume(5, 17, "a=8192");
    assert_eq!(code(Options::new().frames(17).open(made.path())), Code::Shape);
    for copies in [0, 64, 65] {
        let volume = Options::new().frames(5).copies(copies).foreground(true).open(made.path()).unwrap();
        assert_eq!(volume.frames(), 5);
    }
}
