//! A bank whose accounts always have the sum 0, also where it is killed in the middle of a transfer; threads make
//! transfers side by side, and share commits.
//!
//! usage: bank VOLUME [TRANSFERS]    makes transfers, for ever without a number, and prints each that is acknowledged
//!        bank VOLUME --check        prints the sum and how many transfers were made; status 1 where the sum isn't 0
//!
//! The volume has a file `bank`: famsync format VOLUME bank=8192. Its first 8 bytes are the number of
//! transfers, each further 8 bytes are an account.

use famsync::Volume;
use std::error::Error;
use std::process::ExitCode;
use std::sync::RwLock;
use std::{env, thread};

const THREADS: u64 = 4;

fn number(bank: &[u8], place: usize) -> i64 {
    i64::from_le_bytes(bank[8 * place..8 * place + 8].try_into().unwrap())
}

fn add(bank: &mut [u8], place: usize, change: i64) -> i64 {
    let sum = number(bank, place) + change;
    bank[8 * place..8 * place + 8].copy_from_slice(&sum.to_le_bytes());
    sum
}

/// The next of some numbers that look like random ones.
fn random(seed: &mut u64, below: usize) -> usize {
    *seed = seed.wrapping_mul(6364136223846793005).wrapping_add(1442695040888963407);
    (*seed >> 33) as usize % below
}

/// Takes from one account what it gives to another, and answers the transfer's number; none where so many were made.
/// Who stores has the volume alone, so no commit parts a transfer; who commits shares it, so threads share commits,
/// too.
fn transfer(volume: &RwLock<Volume>, most: i64, seed: &mut u64) -> Result<Option<i64>, famsync::Error> {
    let mut alone = volume.write().unwrap();
    let bank = alone.memory_mut("bank")?;
    if number(bank, 0) == most {
        return Ok(None);
    }
    let (accounts, amount) = (bank.len() / 8 - 1, 1 + random(seed, 99) as i64);
    add(bank, 1 + random(seed, accounts), -amount);
    add(bank, 1 + random(seed, accounts), amount);
    let count = add(bank, 0, 1);
    drop(alone);
    volume.read().unwrap().commit()?;
    Ok(Some(count))
}

/// The transfers of one thread.
fn work(volume: &RwLock<Volume>, most: i64, thread: u64) -> Result<(), famsync::Error> {
    let mut seed = u64::from(std::process::id()) * THREADS + thread;
    while let Some(count) = transfer(volume, most, &mut seed)? {
        println!("acknowledged {count}");
    }
    Ok(())
}

/// Prints what there is; whether the sum is 0.
fn check(volume: &Volume) -> Result<bool, famsync::Error> {
    let bank = volume.memory("bank")?;
    let sum: i64 = (1..bank.len() / 8).map(|place| number(bank, place)).sum();
    println!("sum {sum}, {} transfers", number(bank, 0));
    Ok(sum == 0)
}

fn main() -> Result<ExitCode, Box<dyn Error>> {
    let words: Vec<_> = env::args().collect();
    let volume = Volume::open(words.get(1).ok_or("usage: bank VOLUME [TRANSFERS | --check]")?)?;
    let most = match words.get(2).map(String::as_str) {
        Some("--check") => return Ok(ExitCode::from(u8::from(!check(&volume)?))),
        Some(transfers) => number(volume.memory("bank")?, 0) + transfers.parse::<i64>()?,
        None => i64::MAX,
    };
    let volume = &RwLock::new(volume);
    thread::scope(|scope| {
        let threads: Vec<_> = (0..THREADS).map(|thread| scope.spawn(move || work(volume, most, thread))).collect();
        threads.into_iter().try_for_each(|thread| thread.join().unwrap())
    })?;
    Ok(ExitCode::SUCCESS)
}
