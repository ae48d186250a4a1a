//! Volumes that are made: the bytes of each layout, what is refused, and that what has the name stays.

mod volumes;

use famsync::{Code, Options, Plan, Volume};
use std::fs;
use std::io::ErrorKind;
use volumes::{log_blocks, make_volume, KEY, LAYOUTS};

#[test]
fn same_bytes() {
    for layout in LAYOUTS {
        let made = make_volume(layout, 20, "a=8192 b=0/5000");
        let written = fs::read(made.path()).unwrap();
        fs::remove_file(made.path()).unwrap();
        let mut plan = Plan::new();
        plan.layout(u32::from(layout)).log(log_blocks(20) as u32).file("a", 8192).growing("b", 0, 5000);
        plan.key(if layout == 6 { KEY } else { 0 }).make(made.path()).unwrap();
        assert!(fs::read(made.path()).unwrap() == written, "layout {layout}");
    }
}

#[test]
fn each_layout_is_used() {
    for layout in LAYOUTS {
        let made = make_volume(5, 2, "a=1");
        fs::remove_file(made.path()).unwrap();
        let plan = Plan::new().layout(u32::from(layout)).file("bank", 8192).clone();
        let mut volume = Volume::create(made.path(), &plan).unwrap();
        assert_eq!(volume.frames(), 16366);
        for number in 0..50 {
            volume.memory_mut("bank").unwrap()[8191] = number;
            volume.commit().unwrap();
        }
        drop(volume);
        let volume = Options::new().readonly(true).open(made.path()).unwrap();
        assert_eq!(volume.memory("bank").unwrap()[8191], 49);
    }
}

#[test]
fn created() {
    let made = make_volume(5, 2, "a=1");
    let plan = Plan::new().file("bank", 8192).growing("log", 10, 100_000).preallocate(true).clone();
    let refused = Volume::create(made.path(), &plan).unwrap_err();
    assert_eq!((refused.code(), refused.system().unwrap().kind()), (Code::System, ErrorKind::AlreadyExists));
    fs::remove_file(made.path()).unwrap();
    let mut volume = Volume::create(made.path(), &plan).unwrap();
    let files: Vec<_> = volume.files().map(|file| (file.name.to_string(), file.length)).collect();
    assert_eq!((volume.frames(), files), (16366, vec![("bank".into(), 8192), ("log".into(), 10)]));
    volume.memory_mut("bank").unwrap()[8191] = 7;
    volume.set_length("log", 100_000).unwrap();
    volume.commit().unwrap();
    drop(volume);
    let volume = Options::new().readonly(true).open(made.path()).unwrap();
    assert_eq!(volume.memory("bank").unwrap()[8191], 7);
}

#[test]
fn refused() {
    let made = make_volume(5, 2, "a=1");
    fs::remove_file(made.path()).unwrap();
    let plans = [
        Plan::new(),
        Plan::new().file("a", 0).clone(),
        Plan::new().file("a b", 1).clone(),
        Plan::new().file("a\0", 1).clone(),
        Plan::new().file("a", 1).file("a", 1).clone(),
        Plan::new().growing("a", 2, 1).clone(),
        Plan::new().file("a", u64::MAX).clone(),
        Plan::new().file("a", 1).layout(0).clone(),
        Plan::new().file("a", 1).layout(4).clone(),
        Plan::new().file("a", 1).layout(7).clone(),
        Plan::new().file("a", 1).layout(5).log(3).clone(),
        Plan::new().file("a", 1).layout(5).log(0).clone(),
        Plan::new().file("a", 1).layout(5).key(1).clone(),
    ];
    for plan in plans {
        let error = plan.make(made.path()).unwrap_err();
        assert_eq!(error.code(), Code::Argument, "{plan:?}");
        assert!(!error.to_string().is_empty() && !made.path().exists());
    }
    assert_eq!(Plan::new().file("a", 1).make("").unwrap_err().code(), Code::Argument);
    assert_eq!(Plan::new().file("a", 1).make("a\0b").unwrap_err().code(), Code::Argument);
}
