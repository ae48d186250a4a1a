//! A bank in which each transfer is a transaction: one that overdraws an account fails halfway, and is undone.
//!
//! usage: transfers VOLUME [TRANSFERS]    makes transfers, for ever without a number, and prints each acknowledged one
//!        transfers VOLUME --check        prints the sum and how many transfers were made; status 1 where the sum isn't
//!                                        0, or an account is overdrawn
//!
//! The volume has a file `bank`: famsync format --layout 5 VOLUME bank=8192. Its first 8 bytes are the number of
//! transfers, each further 8 bytes are an account.

use famsync::Volume;
use std::env;
use std::error::Error;
use std::process::{self, ExitCode};

/// The least that an account may have.
const LEAST: i64 = -50;

/// Why a transfer is undone.
enum Undone {
    Overdrawn,
    Failed(famsync::Error),
}

impl From<famsync::Error> for Undone {
    fn from(error: famsync::Error) -> Undone {
        Undone::Failed(error)
    }
}

fn number(bank: &[u8], place: usize) -> i64 {
    i64::from_le_bytes(bank[8 * place..8 * place + 8].try_into().unwrap())
}

fn add(bank: &mut [u8], place: usize, change: i64) -> i64 {
    let sum = number(bank, place) + change;
    bank[8 * place..8 * place + 8].copy_from_slice(&sum.to_le_bytes());
    sum
}

/// The next of some numbers that look like random ones.
fn random(seed: &mut u64, below: usize) -> usize {
    *seed = seed.wrapping_mul(6364136223846793005).wrapping_add(1442695040888963407);
    (*seed >> 33) as usize % below
}

/// Takes from one account what it gives to another, and returns the transfer's number.
fn transfer(volume: &mut Volume, seed: &mut u64) -> Result<i64, Undone> {
    volume.transaction(|volume| {
        let bank = volume.memory_mut("bank")?;
        let (accounts, amount) = (bank.len() / 8 - 1, 1 + random(seed, 99) as i64);
        let count = add(bank, 0, 1);
        if add(bank, 1 + random(seed, accounts), -amount) < LEAST {
            return Err(Undone::Overdrawn);
        }
        add(bank, 1 + random(seed, accounts), amount);
        Ok(count)
    })
}

/// Prints what there is; whether it is as it should be.
fn check(volume: &Volume) -> Result<bool, famsync::Error> {
    let bank = volume.memory("bank")?;
    let accounts = || (1..bank.len() / 8).map(|place| number(bank, place));
    println!("sum {}, {} transfers", accounts().sum::<i64>(), number(bank, 0));
    Ok(accounts().sum::<i64>() == 0 && accounts().all(|account| account >= LEAST))
}

fn main() -> Result<ExitCode, Box<dyn Error>> {
    let words: Vec<_> = env::args().collect();
    let mut volume = Volume::open(words.get(1).ok_or("usage: transfers VOLUME [TRANSFERS | --check]")?)?;
    let mut left = match words.get(2).map(String::as_str) {
        Some("--check") => return Ok(ExitCode::from(u8::from(!check(&volume)?))),
        Some(transfers) => transfers.parse()?,
        None => u64::MAX,
    };
    let mut seed = u64::from(process::id());
    while left > 0 {
        match transfer(&mut volume, &mut seed) {
            Ok(count) => println!("acknowledged {count}"),
            Err(Undone::Overdrawn) => continue,
            Err(Undone::Failed(error)) => return Err(error.into()),
        }
        left -= 1;
    }
    Ok(ExitCode::SUCCESS)
}
