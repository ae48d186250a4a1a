//! Transactions: their changes are committed together, or none, whatever is called within them.

mod volumes;

use famsync::{Code, Error, Options, Volume};
use std::fs::{self, OpenOptions};
use std::mem;
use std::os::unix::fs::FileExt;
use std::panic::{self, AssertUnwindSafe};
use std::path::Path;
use volumes::{make_volume, Made};

fn make() -> (Made, Volume) {
    let made = make_volume(5, 16, "a=8192 b=8192");
    let volume = Volume::open(made.path()).unwrap();
    (made, volume)
}

/// The first byte of each file, as the session has it.
fn bytes(volume: &Volume) -> (u8, u8) {
    let mut found = [[0]; 2];
    for (byte, file) in found.iter_mut().zip(["a", "b"]) {
        volume.read(file, 0, byte).unwrap();
    }
    (found[0][0], found[1][0])
}

/// The same, as the next session finds them.
fn committed(volume: Volume, path: &Path) -> (u8, u8) {
    volume.close().unwrap();
    bytes(&Volume::open(path).unwrap())
}

fn code(result: Result<(), Error>) -> Option<Code> {
    result.err().map(|error| error.code())
}

#[test]
fn one_within_another() {
    let (made, mut volume) = make();
    for fails in [false, true] {
        let ended = volume.transaction(|volume| -> Result<(), Error> {
            volume.write("a", 0, &[1])?;
            let inner = volume.transaction(|_| -> Result<(), Error> { panic!("this isn't reached") });
            assert_eq!(code(inner), Some(Code::Transaction));
            assert_eq!(volume.commit().unwrap_err().code(), Code::Transaction);
            volume.write("b", 0, &[1])?;
            if fails {
                volume.write("a", 0, &[2])?;
                return volume.write("a", 1 << 40, &[2]);
            }
            Ok(())
        });
        assert_eq!(code(ended), fails.then_some(Code::Einval));
        assert_eq!((bytes(&volume), volume.acknowledged()), ((1, 1), 1));
    }
    assert_eq!(committed(volume, &made.path()), (1, 1));
}

#[test]
fn a_rollback_within_one() {
    let (made, mut volume) = make();
    let ended = volume.transaction(|volume| -> Result<(), Error> {
        volume.write("a", 0, &[1])?;
        volume.rollback()
    });
    assert_eq!((code(ended), bytes(&volume), volume.acknowledged()), (None, (0, 0), 0));
    let ended = volume.transaction(|volume| -> Result<(), Error> {
        volume.write("a", 0, &[1])?;
        volume.rollback()?;
        volume.write("b", 0, &[1])
    });
    assert_eq!((code(ended), bytes(&volume)), (Some(Code::Torn), (0, 0)));
    volume.transaction(|volume| volume.write("b", 0, &[2])).unwrap();
    assert_eq!(committed(volume, &made.path()), (0, 2));
}

#[test]
fn a_volume_in_the_place_of_another_one() {
    let ((first, mut x), (second, mut y)) = (make(), make());
    let ended = x.transaction(|volume| -> Result<(), Error> {
        volume.write("a", 0, &[1])?;
        mem::swap(volume, &mut y);
        volume.write("a", 0, &[2])
    });
    assert_eq!((code(ended), bytes(&x)), (Some(Code::Torn), (0, 0)));
    assert_eq!((bytes(&y), y.commit().unwrap_err().code()), ((1, 0), Code::Transaction));
    y.rollback().unwrap();
    y.write("b", 0, &[3]).unwrap();
    y.commit().unwrap();
    let ended = x.transaction(|volume| -> Result<(), Error> {
        volume.write("b", 0, &[4])?;
        *volume = make().1;
        volume.transaction(|volume| volume.write("b", 0, &[5]))
    });
    assert_eq!(code(ended), Some(Code::Torn));
    assert_eq!(committed(y, &first.path()), (0, 3));
    assert_eq!(committed(x, &second.path()), (0, 0));
}

/// A panic, and then the volume can't be read for a while, so that the rollback fails.
#[test]
fn a_rollback_that_fails() {
    let made = make_volume(5, 9, "a=32768 b=32768");
    let mut volume = Options::new().foreground(true).open(made.path()).unwrap();
    let file = OpenOptions::new().read(true).write(true).open(made.path()).unwrap();
    let whole = fs::read(made.path()).unwrap();
    let panicked = panic::catch_unwind(AssertUnwindSafe(|| {
        volume.transaction(|volume| -> Result<(), Error> {
            volume.write("a", 0, &[1; 4096])?;
            file.set_len(2 * 4096).unwrap();
            panic::resume_unwind(Box::new(()))
        })
    }));
    assert!(panicked.is_err());
    file.write_all_at(&whole, 0).unwrap();
    assert_eq!(volume.commit().unwrap_err().code(), Code::Transaction);
    assert_eq!(code(volume.transaction(|_| Ok(()))), Some(Code::Transaction));
    volume.rollback().unwrap();
    volume.transaction(|volume| volume.write("b", 0, &[2])).unwrap();
    assert_eq!(committed(volume, &made.path()), (0, 2));
}
