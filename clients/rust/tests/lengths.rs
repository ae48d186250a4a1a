//! Lengths that are set.

mod volumes;

use famsync::{Code, Options, Volume};
use volumes::{make_volume, LAYOUTS};

fn length(volume: &Volume, name: &str) -> u64 {
    volume.files().find(|file| file.name == name).unwrap().length
}

#[test]
fn a_file_grows_and_shrinks() {
    grows_and_shrinks(5);
    grows_and_shrinks(6);
}

fn grows_and_shrinks(layout: u8) {
    let made = make_volume(layout, 16, "a=5000/40000 b=0/4096");
    let mut volume = Volume::open(made.path()).unwrap();
    assert_eq!((length(&volume, "a"), length(&volume, "b")), (5000, 0));
    assert_eq!(volume.memory("b").unwrap_err().code(), Code::Argument);
    volume.memory_mut("a").unwrap()[4999] = 7;
    assert_eq!(volume.set_length("a", 20000).unwrap_err().code(), Code::Busy);
    volume.commit().unwrap();
    volume.close_memory("a").unwrap();
    volume.set_length("a", 20000).unwrap();
    let a = volume.memory_mut("a").unwrap();
    assert!(a.len() == 20000 && a[4999] == 7 && a[5000..].iter().all(|byte| *byte == 0));
    a[19999] = 8;
    volume.commit().unwrap();
    drop(volume);

    let mut volume = Volume::open(made.path()).unwrap();
    assert_eq!((length(&volume, "a"), volume.memory("a").unwrap()[19999]), (20000, 8));
    volume.close_memory("a").unwrap();
    volume.set_length("a", 100).unwrap();
    drop(volume);
    assert_eq!(length(&Volume::open(made.path()).unwrap(), "a"), 20000);
}

#[test]
fn memory_grows_and_shrinks_in_place() {
    for resident in [false, true] {
        let made = make_volume(5, 16, "a=5000/40000 b=8192");
        let mut volume = Options::new().resident(resident).budget(1).open(made.path()).unwrap();
        let a = volume.memory_mut("a").unwrap();
        a[4999] = 7;
        let at = a.as_ptr();
        volume.resize("a", 20000).unwrap();
        let a = volume.memory_mut("a").unwrap();
        assert!(a.as_ptr() == at && a.len() == 20000 && a[4999] == 7 && a[5000..].iter().all(|byte| *byte == 0));
        a[19999] = 8;
        assert_eq!(volume.set_length("a", 100).unwrap_err().code(), Code::Busy);
        assert_eq!(volume.resize("a", 40001).unwrap_err().code(), Code::Einval);
        assert_eq!(volume.resize("c", 1).unwrap_err().code(), Code::NoFile);
        volume.commit().unwrap();
        volume.resize("a", 4999).unwrap();
        assert!(volume.memory_mut("a").unwrap().iter().all(|byte| *byte == 0));
        volume.resize("a", 5000).unwrap();
        assert_eq!((volume.memory("a").unwrap().len(), volume.memory("a").unwrap()[4999]), (5000, 0));
        volume.commit().unwrap();
        drop(volume);
        assert_eq!(length(&Volume::open(made.path()).unwrap(), "a"), 5000);
    }
}

#[test]
fn what_is_past_the_end() {
    for layout in LAYOUTS {
        let volume = Volume::open(make_volume(layout, 16, "a=5000/40000").path()).unwrap();
        assert_eq!(volume.write("a", 8192, b"hello").unwrap_err().code(), Code::Einval);
        volume.set_length("a", 8200).unwrap();
        volume.write("a", 8192, b"hello").unwrap();
        assert_eq!(volume.set_length("a", 40001).unwrap_err().code(), Code::Einval);
    }
}

#[test]
fn a_commit_has_many_pages() {
    let made = make_volume(5, 1501, "a=6144000");
    let mut volume = Volume::open(made.path()).unwrap();
    assert_eq!(volume.frames(), 1500);
    let a = volume.memory_mut("a").unwrap();
    for page in 0..1500 {
        a[page * 4096 + page] = (page % 255 + 1) as u8;
    }
    assert_eq!(volume.commit().unwrap(), 1);
    drop(volume);
    let volume = Volume::open(made.path()).unwrap();
    let a = volume.memory("a").unwrap();
    assert!((0..1500).all(|page| a[page * 4096 + page] == (page % 255 + 1) as u8));
}

#[test]
fn a_file_is_resized_after_a_commit_that_failed() {
    for layout in LAYOUTS {
        resizes_after_failure(layout, false);
        resizes_after_failure(layout, true);
    }
}

fn resizes_after_failure(layout: u8, kernel_tracking: bool) {
    let made = make_volume(layout, 5, "a=40910/81920");
    let opened = Options::new().kernel_tracking(kernel_tracking).open(made.path());
    if matches!(&opened, Err(error) if error.code() == Code::Tracking) {
        return;
    }
    let mut volume = opened.unwrap();
    volume.memory_mut("a").unwrap().chunks_mut(4096).for_each(|page| page[0] = 1);
    assert_eq!(volume.commit().unwrap_err().code(), Code::NoFrame);
    volume.resize("a", 40970).unwrap();
    assert_eq!(volume.commit().unwrap_err().code(), Code::NoFrame);
    volume.resize("a", 8292).unwrap();
    volume.commit().unwrap();
    drop(volume);

    let volume = Volume::open(made.path()).unwrap();
    let a = volume.memory("a").unwrap();
    assert!(a.len() == 8292 && a.chunks(4096).all(|page| page[0] == 1 && page[1..].iter().all(|byte| *byte == 0)));
}
