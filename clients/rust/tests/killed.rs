//! The banks of the examples, killed at random moments: the sum holds, and each transfer that was acknowledged is
//! there. `KILLS` in the environment says how often.

mod volumes;

use std::collections::hash_map::RandomState;
use std::hash::{BuildHasher, Hasher};
use std::io::{BufRead, BufReader};
use std::path::{Path, PathBuf};
use std::process::{Command, Stdio};
use std::time::Duration;
use std::{env, thread};
use volumes::make_volume;

/// The transfers that are made at once, each of which may be there without being acknowledged.
const THREADS: i64 = 4;

/// An example, which `cargo test` builds beside the tests.
fn example(name: &str) -> PathBuf {
    let deps = env::current_exe().unwrap();
    let path = deps.ancestors().nth(2).unwrap().join("examples").join(name);
    assert!(path.exists(), "{path:?} isn't there: cargo build --example {name}");
    path
}

/// Makes transfers until it is killed, so long after it began or after the first one; the number of the last one that
/// was acknowledged, 0 for none.
fn killed_after(bank: &Path, time: Duration, of_the_first: bool, volume: &Path) -> i64 {
    let mut process = Command::new(bank).arg(volume).stdout(Stdio::piped()).spawn().unwrap();
    let mut output = BufReader::new(process.stdout.take().unwrap());
    let mut lines = String::new();
    if of_the_first {
        output.read_line(&mut lines).unwrap();
    }
    thread::sleep(time);
    process.kill().unwrap();
    while output.read_line(&mut lines).unwrap() > 0 {}
    process.wait().unwrap();
    let numbers = lines.split_inclusive('\n').filter_map(|line| line.strip_prefix("acknowledged ")?.strip_suffix('\n'));
    numbers.map(|number| number.parse().unwrap()).max().unwrap_or(0)
}

/// How many transfers there are.
fn found(bank: &Path, volume: &Path) -> i64 {
    let ran = Command::new(bank).arg(volume).arg("--check").output().unwrap();
    let said = String::from_utf8_lossy(&ran.stdout);
    let count = said.strip_prefix("sum 0, ").and_then(|rest| rest.strip_suffix(" transfers\n"));
    assert!(ran.status.success() && count.is_some(), "{said}{}", String::from_utf8_lossy(&ran.stderr));
    count.unwrap().parse().unwrap()
}

/// A bank that has at most so many transfers in progress is killed again and again.
fn the_sum_holds(name: &str, side: i64) {
    let bank = &example(name);
    let kills: u32 = env::var("KILLS").map_or(25, |kills| kills.parse().unwrap());
    let made = make_volume(5, 65, "bank=16384");
    let mut known = 0;
    for turn in 0..kills {
        let time = Duration::from_micros(RandomState::new().build_hasher().finish() % 100_000);
        known = killed_after(bank, time, turn % 2 == 0, &made.path()).max(known);
        let found = found(bank, &made.path());
        assert!((known..=known + side).contains(&found), "{known} were acknowledged, and {found} are there");
        known = found;
    }
    println!("{name}: {kills} kills, sum 0, {known} transfers, none that was acknowledged is missing");
}

#[test]
fn the_sum_of_the_bank_holds() {
    the_sum_holds("bank", THREADS);
}

/// Each transfer is a transaction, and some of them fail halfway.
#[test]
fn the_sum_of_transactions_holds() {
    the_sum_holds("transfers", 1);
}

fn makes_as_many_as_are_asked_for(name: &str) {
    let bank = &example(name);
    let made = make_volume(5, 17, "bank=8192");
    for made_before in [0, 30] {
        assert_eq!(found(bank, &made.path()), made_before);
        let ran = Command::new(bank).arg(made.path()).arg("30").output().unwrap();
        assert_eq!(String::from_utf8_lossy(&ran.stdout).lines().count(), 30);
    }
    assert_eq!(found(bank, &made.path()), 60);
    assert_eq!(Command::new(bank).output().unwrap().status.code(), Some(1));
}

#[test]
fn so_many_transfers_as_are_asked_for() {
    makes_as_many_as_are_asked_for("bank");
    makes_as_many_as_are_asked_for("transfers");
}
