//! Threads: they store to parts of one memory and commit when all are done; share a volume in a lock, and its commits;
//! store to words while others commit.

mod volumes;

use famsync::{Code, Volume};
use std::fs::{File, OpenOptions};
use std::mem;
use std::os::unix::fs::FileExt;
use std::sync::atomic::{AtomicBool, AtomicU64, Ordering};
use std::sync::RwLock;
use std::thread;
use std::time::Duration;
use volumes::make_volume;

const THREADS: usize = 4;

#[test]
fn parts_of_one_memory() {
    let made = make_volume(5, 65, "a=163840");
    let mut volume = Volume::open(made.path()).unwrap();
    for round in 1..20u8 {
        thread::scope(|scope| {
            // parts that end within a page
            for part in volume.memory_mut("a").unwrap().chunks_mut(10000) {
                scope.spawn(|| part.iter_mut().for_each(|byte| *byte += 1));
            }
        });
        assert_eq!(volume.commit().unwrap(), u64::from(round));
        assert!(volume.memory("a").unwrap().iter().all(|byte| *byte == round));
    }
    drop(volume);
    assert!(Volume::open(made.path()).unwrap().memory("a").unwrap().iter().all(|byte| *byte == 19));
}

/// Each store stands in two pages, under a lock, so that each commit has both or neither; commits are shared.
#[test]
fn a_volume_in_a_lock() {
    const ROUNDS: u64 = 50;
    let made = make_volume(5, 17, "a=8192");
    let volume = RwLock::new(Volume::open(made.path()).unwrap());
    thread::scope(|scope| {
        for _ in 0..THREADS {
            scope.spawn(|| {
                for _ in 0..ROUNDS {
                    let mut alone = volume.write().unwrap();
                    let a = alone.memory_mut("a").unwrap();
                    a[0] = a[0].wrapping_add(1);
                    a[8191] = a[0];
                    drop(alone);
                    volume.read().unwrap().commit().unwrap();
                }
            });
        }
    });
    let volume = volume.into_inner().unwrap();
    assert!((1..=ROUNDS * THREADS as u64).contains(&volume.acknowledged()));
    volume.close().unwrap();
    let volume = Volume::open(made.path()).unwrap();
    let a = volume.memory("a").unwrap();
    assert_eq!((a[0], a[8191]), (200, 200));
}

#[test]
fn memory_is_opened_once() {
    let volume = Volume::open(make_volume(5, 17, "a=8192 b=8192").path()).unwrap();
    let places: Vec<_> = thread::scope(|scope| {
        let threads = [(); THREADS].map(|()| {
            scope
                .spawn(|| (volume.memory("a").unwrap().as_ptr() as usize, volume.words("b").unwrap().as_ptr() as usize))
        });
        threads.into_iter().map(|thread| thread.join().unwrap()).collect()
    });
    assert!(places.iter().all(|place| *place == places[0]));
}

/// Pages are stored to in this order, round by round, each in another place than the one before.
const STEPS: usize = 6;

/// The word of a thread at a step.
fn word(thread: usize, step: usize) -> usize {
    512 * (THREADS * (step * 5 % STEPS) + thread) + thread
}

/// Whether counts are those of some moment: they fall by at most one, from a step to a later one.
fn are_of_a_moment(counts: &[u64]) -> bool {
    counts.windows(2).all(|pair| pair[0] >= pair[1]) && counts[0] - counts[counts.len() - 1] <= 1
}

/// Ends threads, also where a test fails meanwhile.
struct Stop<'a>(&'a AtomicBool);

impl Drop for Stop<'_> {
    fn drop(&mut self) {
        self.0.store(true, Ordering::Relaxed);
    }
}

/// Counts until it is stopped; how far.
fn count(words: &[AtomicU64], thread: usize, stopped: &AtomicBool) -> u64 {
    let mut round = 0;
    while !stopped.load(Ordering::Relaxed) {
        round += 1;
        (0..STEPS).for_each(|step| words[word(thread, step)].store(round, Ordering::Release));
    }
    round
}

/// The counts of a thread in bytes that were committed.
fn counts(bytes: &[u8], thread: usize) -> Vec<u64> {
    let number = |at: usize| u64::from_ne_bytes(bytes[8 * at..8 * at + 8].try_into().unwrap());
    (0..STEPS).map(|step| number(word(thread, step))).collect()
}

/// The bytes of a volume's only file as they were committed: at the end of a backup.
fn read_committed(volume: &Volume, file: &File, bytes: &mut [u8]) {
    volume.backup(file).unwrap();
    file.read_exact_at(bytes, file.metadata().unwrap().len() - bytes.len() as u64).unwrap();
}

#[test]
fn words_are_stored_to_while_others_commit() {
    let made = make_volume(5, 33, "a=98304");
    let volume = Volume::open(made.path()).unwrap();
    let (words, stopped) = (volume.words("a").unwrap(), &AtomicBool::new(false));
    let copy = OpenOptions::new().read(true).write(true).create_new(true).open(made.beside("copy.img")).unwrap();
    let mut bytes = vec![0; 98304];
    let last: Vec<_> = thread::scope(|scope| {
        let stop = Stop(stopped);
        let threads: Vec<_> = (0..THREADS).map(|thread| scope.spawn(move || count(words, thread, stopped))).collect();
        for mark in 1..40 {
            assert_eq!(volume.commit().unwrap(), mark);
            read_committed(&volume, &copy, &mut bytes);
            for counts in (0..THREADS).map(|thread| counts(&bytes, thread)) {
                assert!(are_of_a_moment(&counts), "{counts:?}");
            }
        }
        drop(stop);
        threads.into_iter().map(|thread| thread.join().unwrap()).collect()
    });
    volume.commit().unwrap();
    read_committed(&volume, &copy, &mut bytes);
    (0..THREADS).for_each(|thread| assert_eq!(counts(&bytes, thread), [last[thread]; STEPS]));
}

/// Additions of several threads to one word, which is closed again and again: none is lost.
#[test]
fn additions_to_one_word() {
    const ADDITIONS: u64 = 20000;
    let made = make_volume(5, 17, "a=8192");
    let volume = Volume::open(made.path()).unwrap();
    let words: &[AtomicU64] = volume.words("a").unwrap();
    thread::scope(|scope| {
        for _ in 0..THREADS {
            scope.spawn(|| {
                for _ in 0..ADDITIONS {
                    words[0].fetch_add(1, Ordering::Relaxed);
                }
            });
        }
        for mark in 1..30 {
            assert_eq!(volume.commit().unwrap(), mark);
        }
    });
    volume.commit().unwrap();
    drop(volume);
    let volume = Volume::open(made.path()).unwrap();
    assert_eq!(volume.words("a").unwrap()[0].load(Ordering::Relaxed), THREADS as u64 * ADDITIONS);
}

#[test]
fn a_volume_goes_to_another_thread() {
    fn is_sent_and_shared<T: Send + Sync + 'static>() {}
    is_sent_and_shared::<Volume>();
    is_sent_and_shared::<famsync::Error>();
    let made = make_volume(5, 17, "a=8192");
    let mut volume = Volume::open(made.path()).unwrap();
    volume.memory_mut("a").unwrap()[0] = 1;
    let volume = thread::spawn(move || volume.commit().map(|_| volume)).join().unwrap().unwrap();
    thread::spawn(move || volume.close()).join().unwrap().unwrap();
    assert_eq!(Volume::open(made.path()).unwrap().memory("a").unwrap()[0], 1);
}

/// Transfers in groups, each to a word of another page, while others commit: the sum of all words is always 0.
#[test]
fn groups_are_committed_whole() {
    const WORDS: usize = 4096;
    let made = make_volume(5, 32, "a=32768");
    let volume = Volume::open(made.path()).unwrap();
    let (words, stopped) = (volume.words("a").unwrap(), &AtomicBool::new(false));
    thread::scope(|scope| {
        let stop = Stop(stopped);
        for thread in 1..THREADS {
            let volume = &volume;
            scope.spawn(move || {
                for number in (thread..).take_while(|_| !stopped.load(Ordering::Relaxed)) {
                    let _group = volume.group().unwrap();
                    words[number * 513 % WORDS].fetch_sub(7, Ordering::Release);
                    words[(number * 517 + 9) % WORDS].fetch_add(7, Ordering::Release);
                }
            });
        }
        for round in 0..40 {
            volume.commit().unwrap();
            let path = made.beside(&format!("{round}.img"));
            volume.backup(OpenOptions::new().read(true).write(true).create_new(true).open(&path).unwrap()).unwrap();
            let copy = Volume::open(path).unwrap();
            let sum = copy
                .words("a")
                .unwrap()
                .iter()
                .fold(0, |sum: u64, word| sum.wrapping_add(word.load(Ordering::Relaxed)));
            assert_eq!(sum, 0, "round {round}");
        }
        drop(stop);
    });
}

#[test]
fn a_thread_with_a_group_cant_commit() {
    let made = make_volume(5, 32, "a=32768");
    let volume = Volume::open(made.path()).unwrap();
    let words = volume.words("a").unwrap();
    let group = volume.group().unwrap();
    words[0].store(1, Ordering::Release);
    assert_eq!(volume.commit().unwrap_err().code(), Code::Busy);
    drop(volume.group().unwrap());
    assert_eq!(volume.commit().unwrap_err().code(), Code::Busy);
    thread::scope(|scope| {
        let committed = scope.spawn(|| volume.commit().unwrap());
        thread::sleep(Duration::from_millis(30));
        assert!(!committed.is_finished() && volume.acknowledged() == 0);
        drop(group);
        assert_eq!(committed.join().unwrap(), 1);
    });
    assert_eq!(volume.commit().unwrap(), 2);
}

#[test]
fn a_group_that_is_leaked() {
    let made = make_volume(5, 32, "a=32768");
    let mut volume = Volume::open(made.path()).unwrap();
    thread::scope(|scope| {
        scope.spawn(|| {
            volume.words("a").unwrap()[0].store(1, Ordering::Release);
            mem::forget(volume.group().unwrap());
            assert_eq!(volume.commit().unwrap_err().code(), Code::Busy);
        });
    });
    assert_eq!(volume.commit().unwrap_err().code(), Code::Torn);
    volume.rollback().unwrap();
    assert_eq!(volume.commit().unwrap(), 1);
    assert_eq!(volume.words("a").unwrap()[0].load(Ordering::Relaxed), 0);
    mem::forget(volume.group().unwrap());
    assert_eq!(volume.rollback().unwrap_err().code(), Code::Busy);
    assert_eq!(volume.close().unwrap_err().code(), Code::Busy);
}
