//! Files whose changes become durable together: keep your data in memory, and make it durable with one call.
//!
//! After a crash at any moment the files of a [`Volume`] are as they were at one [`commit`](Volume::commit): the last
//! acknowledged one, or a later one.
//!
//! ```
//! # include!(concat!(env!("CARGO_MANIFEST_DIR"), "/tests/volumes/mod.rs"));
//! # fn main() -> Result<(), famsync::Error> {
//! # let made = make_volume(5, 16, "bank=8192");
//! # let path = &made.path();
//! let mut volume = famsync::Volume::open(path)?;
//! let bank = volume.memory_mut("bank")?;
//! bank[3] = 93;
//! bank[9] = 7;
//! volume.commit()?; // both or neither
//! # Ok(())
//! # }
//! ```
//!
//! The crate is a safe form of the C library `libfamsync`, and has no other dependency.

#![deny(missing_docs, unsafe_op_in_unsafe_fn)]
#![warn(rust_2018_idioms)]

mod error;
mod ffi;
mod group;
mod memory;
mod options;
mod plan;
mod volume;

pub use error::{Code, Error};
pub use group::Group;
pub use options::Options;
pub use plan::Plan;
pub use volume::{File, Info, Stat, Volume};

/// The version of the library that this program runs with.
pub fn version() -> &'static str {
    // Safety: it answers a string that is never freed.
    unsafe { std::ffi::CStr::from_ptr(ffi::famsync_version()) }.to_str().unwrap_or_default()
}

#[cfg(doctest)]
#[doc = include_str!("../README.md")]
struct Readme;
