//! Plain memory: stores are kept by a commit and by nothing else; more pages than a commit has are refused.

mod volumes;

use famsync::{Code, Error, Options, Volume};
use std::fs::{File, OpenOptions};
use std::hint::black_box;
use std::io::{repeat, Read};
use std::os::unix::fs::FileExt;
use std::panic::{catch_unwind, AssertUnwindSafe};
use std::sync::atomic::Ordering;
use volumes::make_volume;

#[test]
fn stores_are_kept_by_a_commit() {
    let made = make_volume(5, 17, "a=20000 b=5000");
    let mut volume = Volume::open(made.path()).unwrap();
    let files: Vec<_> = volume.files().map(|file| (file.name.to_string(), file.length)).collect();
    assert_eq!(files, [("a".to_string(), 20000), ("b".to_string(), 5000)]);
    assert_eq!(format!("{volume:?}").matches("File").count(), 2);
    let [b, a] = volume.memories_mut(["b", "a"]).unwrap();
    assert!(a.len() == 20000 && b.len() == 5000 && a.iter().chain(b.iter()).all(|byte| *byte == 0));
    for (place, byte) in [(0, 1), (4095, 2), (4096, 3), (19999, 4)] {
        a[place] = byte;
    }
    b[4999] = 5;
    assert_eq!((volume.dirty("a").unwrap(), volume.dirty("b").unwrap()), (3, 1));
    assert_eq!((volume.commit().unwrap(), volume.acknowledged(), volume.dirty("a").unwrap()), (1, 1, 0));
    volume.memory_mut("a").unwrap()[1] = 6;
    volume.close().unwrap();

    let volume = Volume::open(made.path()).unwrap();
    let (a, b) = (volume.memory("a").unwrap(), volume.memory("b").unwrap());
    assert_eq!((a[0], a[1], a[4095], a[4096], a[19999], b[4999]), (1, 0, 2, 3, 4, 5));
    assert_eq!(volume.acknowledged(), 0);
}

#[test]
fn each_store_before_a_commit_is_in_it() {
    /// Of which an optimizing compiler would leave out the first store, could the memory be borrowed as long.
    #[inline(never)]
    fn rewrite(volume: &mut Volume, byte: u8) {
        volume.memory_mut("a").unwrap()[0] = byte;
        volume.commit().unwrap();
        volume.memory_mut("a").unwrap()[0] = byte + 1;
    }
    let made = make_volume(5, 17, "a=8192");
    let mut volume = Volume::open(made.path()).unwrap();
    for byte in 1..9 {
        rewrite(&mut volume, byte);
    }
    drop(volume);
    assert_eq!(Volume::open(made.path()).unwrap().memory("a").unwrap()[0], 8);
}

#[test]
fn too_many_pages() {
    let made = make_volume(5, 9, "a=81920");
    let mut volume = Volume::open(made.path()).unwrap();
    assert_eq!(volume.frames(), 8);
    let store = |volume: &mut Volume, pages: usize, byte| {
        let a = volume.memory_mut("a").unwrap();
        (0..pages).for_each(|page| a[page * 2 * 4096] = byte);
        volume.commit().map_err(|error| error.code())
    };
    assert_eq!(store(&mut volume, 8, 1), Ok(1));
    assert_eq!(store(&mut volume, 9, 2), Err(Code::NoFrame));
    assert_eq!(store(&mut volume, 9, 3), Err(Code::NoFrame));
    assert_eq!((volume.dirty("a").unwrap(), volume.acknowledged()), (9, 1));
    // nothing of it was stored
    volume.close_memory("a").unwrap();
    assert_eq!((volume.dirty("a").unwrap(), volume.commit().unwrap()), (0, 2));
    assert_eq!(volume.memory("a").unwrap()[0], 1);
}

/// Pages that `write` wrote and those of memory are counted together, and nothing is stored that doesn't fit.
#[test]
fn too_many_pages_in_both_ways() {
    let made = make_volume(5, 9, "a=81920");
    let mut volume = Volume::open(made.path()).unwrap();
    volume.write("a", 16 * 4096, &[9; 4 * 4096]).unwrap();
    let a = volume.memory_mut("a").unwrap();
    (0..6).for_each(|page| a[page * 2 * 4096] = 3);
    assert_eq!(volume.commit().unwrap_err().code(), Code::NoFrame);
    volume.close_memory("a").unwrap();
    assert_eq!(volume.commit().unwrap(), 1);
    drop(volume);
    let volume = Volume::open(made.path()).unwrap();
    let a = volume.memory("a").unwrap();
    assert!(a[..16 * 4096].iter().all(|byte| *byte == 0) && a[16 * 4096..].iter().all(|byte| *byte == 9));
}

#[test]
fn rollbacks() {
    let made = make_volume(5, 16, "a=20000/40000 b=8192");
    for resident in [false, true] {
        let mut volume = Options::new().resident(resident).open(made.path()).unwrap();
        volume.memory_mut("a").unwrap()[..5000].fill(7);
        volume.commit().unwrap();
        volume.memory_mut("a").unwrap()[4000..20000].fill(8);
        volume.rollback().unwrap();
        let a = volume.memory("a").unwrap();
        assert!(a[..5000].iter().all(|byte| *byte == 7) && a[5000..].iter().all(|byte| *byte == 0));
        volume.write("b", 0, b"other").unwrap();
        volume.memory_mut("a").unwrap()[0] = 9;
        volume.rollback().unwrap();
        let mut found = [1; 5];
        volume.read("b", 0, &mut found).unwrap();
        assert_eq!((volume.memory("a").unwrap()[0], found), (7, [0; 5]));
        for length in [30000, 10, 0] {
            volume.resize("a", length).unwrap();
            volume.rollback().unwrap();
            assert_eq!((volume.memory("a").unwrap().len(), volume.memory("a").unwrap()[4999]), (20000, 7));
        }
        volume.memory_mut("a").unwrap()[..5000].fill(0);
        volume.commit().unwrap();
    }
    let mut volume = Options::new().readonly(true).open(made.path()).unwrap();
    assert_eq!(volume.rollback().unwrap_err().code(), Code::ReadOnly);
}

/// With `resident` it doesn't matter what becomes of the volume's file.
#[test]
fn a_file_that_others_change() {
    let made = make_volume(5, 5, "a=40960");
    let volume = Options::new().resident(true).open(made.path()).unwrap();
    let bytes = volume.memory("a").unwrap();
    let file = OpenOptions::new().write(true).open(made.path()).unwrap();
    file.write_all_at(&[7; 40960], 7 * 4096).unwrap();
    assert!(black_box(bytes).iter().all(|byte| *byte == 0));
    file.set_len(4096).unwrap();
    assert!(black_box(bytes).iter().all(|byte| *byte == 0));
}

#[test]
fn transactions() {
    let made = make_volume(5, 5, "a=40960 b=8192");
    let mut volume = Volume::open(made.path()).unwrap();
    let store = |volume: &mut Volume, pages: usize, byte| {
        volume.transaction(|volume| -> Result<usize, Error> {
            let a = volume.memory_mut("a")?;
            (0..pages).for_each(|page| a[page * 4096] = byte);
            volume.memory("c")?;
            Ok(pages)
        })
    };
    assert_eq!(store(&mut volume, 2, 1).unwrap_err().code(), Code::NoFile);
    assert_eq!((volume.dirty("a").unwrap(), volume.memory("a").unwrap()[0], volume.acknowledged()), (0, 0, 0));
    let answer: Result<usize, Error> = volume.transaction(|volume| {
        volume.memory_mut("a")?[0] = 2;
        Ok(5)
    });
    assert_eq!((answer.unwrap(), volume.memory("a").unwrap()[0], volume.acknowledged()), (5, 2, 1));
    // a commit that is refused, and a panic
    let refused = volume.transaction(|volume| -> Result<(), Error> {
        volume.memory_mut("a")?.fill(3);
        Ok(())
    });
    assert_eq!(refused.unwrap_err().code(), Code::NoFrame);
    assert_eq!((volume.dirty("a").unwrap(), volume.memory("a").unwrap()[..2].to_vec()), (0, vec![2, 0]));
    let panicked = catch_unwind(AssertUnwindSafe(|| {
        volume.transaction(|volume| -> Result<(), Error> {
            volume.memory_mut("a")?[1] = 4;
            panic!("within a transaction")
        })
    }));
    assert!(panicked.is_err() && volume.memory("a").unwrap()[..2] == [2, 0]);
    // what was written by a call
    let mixed = volume.transaction(|volume| -> Result<(), Error> {
        volume.write("b", 0, b"other")?;
        volume.memory("c").map(|_| ())
    });
    let mut found = [1; 5];
    volume.read("b", 0, &mut found).unwrap();
    assert_eq!((mixed.unwrap_err().code(), found), (Code::NoFile, [0; 5]));
}

#[test]
fn tracked_by_the_kernel() {
    let made = make_volume(5, 16, "a=20000/40000");
    let opened = Options::new().kernel_tracking(true).open(made.path());
    if opened.as_ref().is_err_and(|error| error.code() == Code::Tracking) {
        return;
    }
    let mut volume = opened.unwrap();
    let mut zeros = File::open("/dev/zero").unwrap();
    let a = volume.memory_mut("a").unwrap();
    a[9000] = 7;
    zeros.read_exact(&mut a[..10]).unwrap();
    assert_eq!((volume.dirty("a").unwrap(), volume.commit().unwrap(), volume.dirty("a").unwrap()), (2, 1, 0));
    volume.memory_mut("a").unwrap()[9000] = 8;
    volume.rollback().unwrap();
    assert_eq!(volume.memory("a").unwrap()[9000], 7);
    let both = Options::new().kernel_tracking(true).resident(true).open(made.path());
    assert_eq!(both.unwrap_err().code(), Code::Argument);
}

#[test]
fn at_an_address() {
    let made = make_volume(5, 17, "a=8192 b=8192");
    let address = 0x2100_0000_0000;
    for round in 0..3 {
        let mut volume = Volume::open(made.path()).unwrap();
        for wrong in [1, 4096, address + 1, usize::MAX - 4095] {
            assert_eq!(volume.open_memory_at("a", wrong).unwrap_err().code(), Code::Address);
        }
        assert_eq!(volume.open_memory_at("c", address).unwrap_err().code(), Code::NoFile);
        volume.open_memory_at("a", address).unwrap();
        assert_eq!(volume.open_memory_at("a", address).unwrap_err().code(), Code::Overlap);
        assert_eq!(volume.open_memory_at("b", address + 4096).unwrap_err().code(), Code::Address);
        let a = volume.memory_mut("a").unwrap();
        assert_eq!((a.as_ptr() as usize, a[0]), (address, round));
        a[0] += 1;
        volume.commit().unwrap();
    }
}

#[test]
fn bytes_or_words() {
    let made = make_volume(5, 17, "a=8192 b=5001");
    let mut volume = Volume::open(made.path()).unwrap();
    volume.memory_mut("a").unwrap()[8] = 1;
    let words = volume.words("a").unwrap();
    assert_eq!((words.len(), volume.words("b").unwrap().len()), (1024, 625));
    assert_eq!(u64::from_le(words[1].load(Ordering::Relaxed)), 1);
    words[1].fetch_add(1u64.to_le(), Ordering::Relaxed);
    let error = volume.memory("a").unwrap_err();
    assert_eq!((error.code(), error.to_string()), (Code::Overlap, "\"a\" is shared already, as words".into()));
    volume.commit().unwrap();
    // who has the volume alone may have it as bytes, and then share it so
    assert_eq!(volume.memory_mut("a").unwrap()[8], 2);
    assert_eq!(volume.memory("a").unwrap()[8], 2);
    assert_eq!(volume.words("a").unwrap_err().code(), Code::Overlap);
    volume.close_memory("a").unwrap();
    assert_eq!(volume.words("a").unwrap()[1].load(Ordering::Relaxed), 2u64.to_le());
}

#[test]
fn the_kernel_stores_through_no_handler() {
    let made = make_volume(5, 17, "a=8192");
    let mut volume = Volume::open(made.path()).unwrap();
    let mut zeros = File::open("/dev/zero").unwrap();
    let a = volume.memory_mut("a").unwrap();
    assert!(zeros.read_exact(&mut a[..10]).is_err());
    a[0] = 1;
    zeros.read_exact(&mut a[..10]).unwrap();
    assert!(zeros.read_exact(&mut a[4096..4106]).is_err());
    assert_eq!(volume.dirty("a").unwrap(), 1);
}

#[test]
fn pages_that_are_opened_ahead() {
    let made = make_volume(5, 4, "a=20000");
    let mut volume = Volume::open(made.path()).unwrap();
    let mut ones = repeat(1).take(4106);
    volume.touch("a", 4090..8196).unwrap();
    assert_eq!(volume.dirty("a").unwrap(), 3);
    File::open("/dev/zero").unwrap().read_exact(&mut volume.memory_mut("a").unwrap()[..10000]).unwrap();
    ones.read_exact(&mut volume.memory_mut("a").unwrap()[4090..8196]).unwrap();
    volume.touch("a", 20000..).unwrap();
    assert_eq!(volume.touch("a", ..).unwrap_err().code(), Code::NoFrame);
    for (begin, end) in [(0, 20001), (20001, 20001), (5, 4), (0, u64::MAX)] {
        assert_eq!(volume.touch("a", begin..end).unwrap_err().code(), Code::Argument);
    }
    assert_eq!(volume.touch("b", ..).unwrap_err().code(), Code::NoFile);
    volume.commit().unwrap();
    assert_eq!(volume.dirty("a").unwrap(), 0);
    drop(volume);
    let volume = Volume::open(made.path()).unwrap();
    assert!(volume.memory("a").unwrap()[4090..8196].iter().all(|byte| *byte == 1));
}

#[test]
fn many_sessions() {
    let made = make_volume(5, 17, "a=8192 b=8192");
    for round in 1..30u8 {
        let mut volume = Volume::open(made.path()).unwrap();
        let [a, b] = volume.memories_mut(["a", "b"]).unwrap();
        assert_eq!((a[0], b[4096]), (round - 1, round - 1));
        (a[0], b[4096]) = (round, round);
        volume.commit().unwrap();
        volume.memory_mut("b").unwrap()[0] = 99;
    }
}
