//! Read and write: which bytes there are, and what is refused. Backups, and what a session says of itself.

mod volumes;

use famsync::{Code, Error, Options, Volume};
use std::fs::{File, OpenOptions};
use std::thread;
use volumes::{log_blocks, make_volume, Made, LAYOUTS};

fn refusal<T: std::fmt::Debug>(answer: Result<T, Error>) -> (Code, usize) {
    let error = answer.unwrap_err();
    (error.code(), error.done())
}

#[test]
fn writes_are_read_and_kept() {
    let made = make_volume(5, 17, "a=20000 b=20000");
    let volume = Volume::open(made.path()).unwrap();
    let bytes: Vec<u8> = (0..9000u32).map(|place| (place % 251) as u8).collect();
    volume.write("b", 3000, &bytes).unwrap();
    let mut found = vec![0; 8192];
    assert_eq!(volume.read("b", 4096, &mut found).unwrap(), 8192);
    assert_eq!(found[..7904], bytes[1096..]);
    assert_eq!(volume.commit().unwrap(), 1);
    volume.write("b", 0, &bytes).unwrap();
    volume.close().unwrap();

    let volume = Volume::open(made.path()).unwrap();
    let b = volume.memory("b").unwrap();
    assert!(b[..3000].iter().all(|byte| *byte == 0) && b[3000..12000] == bytes);
}

#[test]
fn the_end_of_a_file() {
    let volume = Volume::open(make_volume(5, 17, "a=5000").path()).unwrap();
    volume.write("a", 4999, b"7").unwrap();
    for (offset, count, found) in
        [(4998, 2, 2), (4998, 3, 2), (4999, 100, 1), (5000, 1, 0), (u64::MAX, 9, 0), (0, 0, 0)]
    {
        assert_eq!(volume.read("a", offset, &mut vec![0; count]).unwrap(), found);
    }
    for (offset, bytes) in [(4999, &b"ab"[..]), (5000, b"a"), (8192, b"a"), (u64::MAX, b"ab")] {
        assert_eq!(refusal(volume.write("a", offset, bytes)), (Code::Einval, 0));
    }
    volume.write("a", 5000, &[]).unwrap();
}

#[test]
fn what_is_refused() {
    let made = make_volume(5, 5, "a=20480");
    let volume = Volume::open(made.path()).unwrap();
    assert_eq!(refusal(volume.read("b", 0, &mut [0])), (Code::NoFile, 0));
    assert_eq!(refusal(volume.write("b", 0, &[0])), (Code::NoFile, 0));
    assert_eq!(refusal(volume.write("a", 0, &[1; 5 * 4096])), (Code::NoFrame, 0));
    volume.write("a", 0, &[1; 4 * 4096]).unwrap();
    assert_eq!(refusal(volume.write("a", 4 * 4096, &[1])), (Code::NoFrame, 0));
    assert_eq!(volume.commit().unwrap(), 1);
    volume.close().unwrap();
    let volume = Options::new().readonly(true).open(made.path()).unwrap();
    assert_eq!(refusal(volume.write("a", 0, &[1])), (Code::ReadOnly, 0));
    assert_eq!(volume.read("a", 0, &mut [0; 9]).unwrap(), 9);
}

/// A file whose memory is open is read by that, and isn't written past those who share it.
#[test]
fn both_ways() {
    let mut volume = Volume::open(make_volume(5, 17, "a=8192 b=8192").path()).unwrap();
    let mut found = [0; 2];
    volume.write("a", 0, b"x").unwrap();
    assert_eq!(volume.memory("a").unwrap()[..2], *b"x\0");
    volume.memory_mut("a").unwrap()[1] = b'y';
    volume.read("a", 0, &mut found).unwrap();
    assert_eq!(&found, b"xy");
    assert_eq!(refusal(volume.write("a", 0, b"z")), (Code::Overlap, 0));
    volume.words("b").unwrap();
    assert_eq!(refusal(volume.read("b", 0, &mut found)), (Code::Overlap, 0));
    assert_eq!(refusal(volume.write("b", 0, b"z")), (Code::Overlap, 0));
    // who read them as bytes may have a slice of them, and so nobody has words
    assert_eq!(volume.memory_mut("a").unwrap().len(), 8192);
    volume.read("a", 0, &mut found).unwrap();
    assert_eq!(volume.words("a").unwrap_err().code(), Code::Overlap);
    volume.commit().unwrap();
    volume.close_memory("a").unwrap();
    volume.write("a", 0, b"z").unwrap();
    volume.read("a", 0, &mut found).unwrap();
    assert_eq!(&found, b"zy");
}

#[test]
fn threads_write_and_read() {
    let volume = Volume::open(make_volume(5, 64, "a=131072").path()).unwrap();
    thread::scope(|scope| {
        for number in 0..8u64 {
            let volume = &volume;
            scope.spawn(move || {
                for turn in 1..20u64 {
                    let mut found = [0; 8];
                    volume.write("a", number * 16384 + 4092, &turn.to_le_bytes()).unwrap();
                    volume.commit().unwrap();
                    assert_eq!(volume.read("a", number * 16384 + 4092, &mut found).unwrap(), 8);
                    assert_eq!(u64::from_le_bytes(found), turn);
                }
            });
        }
    });
}

fn new_file(made: &Made) -> File {
    OpenOptions::new().read(true).write(true).create(true).truncate(false).open(made.beside("copy.img")).unwrap()
}

#[test]
fn a_backup() {
    let made = make_volume(5, 16, "a=20000 b=5000/9000");
    let mut volume = Volume::open(made.path()).unwrap();
    volume.write("a", 4095, b"first").unwrap();
    volume.set_length("b", 7).unwrap();
    volume.commit().unwrap();
    volume.memory_mut("a").unwrap()[4095] = 0;
    let file = new_file(&made);
    volume.backup(&file).unwrap();
    volume.backup(file).unwrap();
    let copy = Options::new().readonly(true).open(made.beside("copy.img")).unwrap();
    let mut found = [0; 5];
    copy.read("a", 4095, &mut found).unwrap();
    assert_eq!((&found, copy.files().nth(1).unwrap().length), (b"first", 7));
}

#[test]
fn what_is_no_place_for_a_backup() {
    let made = make_volume(5, 17, "a=8192");
    let volume = Volume::open(made.path()).unwrap();
    drop(new_file(&made));
    assert_eq!(refusal(volume.backup(File::open(made.beside("copy.img")).unwrap())).0, Code::Argument);
    assert_eq!(refusal(volume.backup(File::open(made.beside(".")).unwrap())).0, Code::Argument);
    let own = OpenOptions::new().read(true).write(true).open(made.path()).unwrap();
    assert_eq!(refusal(volume.backup(own)).0, Code::Argument);
    volume.backup(new_file(&made)).unwrap();
    let other = Volume::open(made.beside("copy.img")).unwrap();
    assert_eq!(refusal(volume.backup(new_file(&made))).0, Code::InUse);
    drop(other);
}

#[test]
fn numbers_of_a_volume() {
    let made = make_volume(5, 8, "a=65536 b=0/5000");
    let blocks = std::fs::metadata(made.path()).unwrap().len() / 4096;
    let volume = Options::new().frames(3).open(made.path()).unwrap();
    let info = volume.info().unwrap();
    assert_eq!((info.layout, info.blocks, info.files), (5, blocks, 2));
    assert_eq!((info.log, info.log_used, info.frames, info.readonly), (log_blocks(8), 0, 7, false));
    assert_eq!((volume.frames(), volume.files().map(|file| file.capacity).collect()), (3, vec![65536, 5000]));
    drop(volume);
    assert!(Options::new().readonly(true).open(made.path()).unwrap().info().unwrap().readonly);
    for layout in LAYOUTS {
        let volume = Options::new().foreground(true).open(make_volume(layout, 8, "a=65536").path()).unwrap();
        volume.write("a", 0, b"x").unwrap();
        volume.commit().unwrap();
        let info = volume.info().unwrap();
        assert_eq!((info.layout, info.log, info.log_used), (u64::from(layout), log_blocks(8), 2));
    }
}

#[test]
fn numbers_of_a_session() {
    let mut volume = Options::new().foreground(true).open(make_volume(5, 17, "a=20000 b=4096").path()).unwrap();
    let before = volume.stat().unwrap();
    assert_eq!((before.commits, before.frames, before.staged, before.unwritten), (0, 16, 0, 0));
    volume.write("a", 4095, b"xy").unwrap();
    volume.memory_mut("b").unwrap()[0] = 1;
    assert_eq!(volume.stat().unwrap().staged, 3);
    volume.commit().unwrap();
    let after = volume.stat().unwrap();
    assert_eq!((after.commits, after.staged, after.unwritten, after.syncs), (1, 0, 4, before.syncs + 2));
    assert_eq!((after.writes, after.bytes_written), (before.writes + 2, before.bytes_written + 4 * 4096 + 1));
    assert!(after.reads > 0 && after.memory > 0);
}
