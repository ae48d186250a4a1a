//! Plain memory: a whole file as memory of this process.
//!
//! # Why stores and commits exclude each other
//!
//! A commit reads the memory of each file of its volume. A `&mut [u8]` tells the compiler that nobody else reads these
//! bytes as long as it lives. So the compiler may keep a store back until after a call, or leave it out where another
//! one follows, be the call the one that commits. It does so: of `bytes[0] = 1; commit(); bytes[0] = 2;` the first
//! store is gone from an optimized function that has `bytes` as an argument. A commit would be acknowledged without a
//! store that stands before it, and one of another thread would have any mixture.
//!
//! So no `&mut [u8]` may live while a commit is made, by whichever thread. The types say it: plain memory belongs to
//! its `Volume`, a `&mut [u8]` borrows the whole of that alone, and `commit` borrows it shared.
//!
//! ```compile_fail,E0502
//! fn pay(volume: &mut famsync::Volume) {
//!     let bank = volume.memory_mut("bank").unwrap();
//!     std::thread::scope(|scope| {
//!         scope.spawn(|| volume.commit());
//!         bank[0] = 1;
//!     });
//! }
//! ```
//!
//! A `&[u8]` may live meanwhile, as a commit doesn't store to plain memory.
//!
//! # Why words may be stored to meanwhile
//!
//! Of an atomic the compiler knows that others may read it at any time. That the library's own read of it is no data
//! race rests on how `clients/c/src/stores.c` reads, as its header promises: it reads a page only while that is closed
//! to stores. The page is closed by `mprotect`, which returns once no processor has it open any more, so that all
//! earlier stores come before the read. A later store raises SIGSEGV, whose handler waits for a lock that the commit
//! gives back when it has read: so the read comes before that store. `famsync_memory_dirty` and `famsync_stat` read
//! pages that are open. So they are called only through a `&mut Volume`. `famsync_read` reads them, too, and is called
//! only while the memory isn't shared as words.
//!
//! Words and slices of the same bytes would be in each other's way, so a file that is shared has one view.
//!
//! ```compile_fail,E0502
//! fn both(volume: &mut famsync::Volume) {
//!     let words = volume.words("bank").unwrap();
//!     volume.memory_mut("bank").unwrap()[0] = 1;
//!     words[0].store(2, std::sync::atomic::Ordering::Relaxed);
//! }
//! ```

use crate::error::{check, Code, Error};
use crate::ffi;
use crate::volume::Session;
use std::ffi::{c_void, CStr, CString};
use std::ptr::{self, NonNull};
use std::slice;
use std::sync::atomic::AtomicU64;
use std::sync::OnceLock;

/// The plain memory of a file, which is open until this is dropped.
pub(crate) struct Plain {
    memory: NonNull<ffi::FamsyncMemory>,
    at: NonNull<u8>,
    length: usize,
}

// Safety: the library's calls with it may come from any thread, and whoever has it may use the bytes: by `&Plain` as
// the view says that was taken, by `&mut Plain` alone.
unsafe impl Send for Plain {}
unsafe impl Sync for Plain {}

impl Plain {
    /// It has to be dropped before the session.
    pub(crate) fn open(session: &Session, name: &CStr, address: Option<usize>) -> Result<Plain, Error> {
        let mut memory = ptr::null_mut();
        // Safety: the session is open, and the name ends with a null byte. It takes the place of no other memory.
        check(unsafe {
            match address {
                None => ffi::famsync_memory_open(session.handle(), name.as_ptr(), &mut memory),
                Some(address) => {
                    ffi::famsync_memory_open_at(session.handle(), name.as_ptr(), address as *mut c_void, &mut memory)
                }
            }
        })?;
        // Safety: the memory was opened, and isn't closed yet.
        let at = unsafe { ffi::famsync_memory_at(memory) };
        let length = unsafe { ffi::famsync_memory_length(memory) };
        match (NonNull::new(memory), NonNull::new(at.cast())) {
            (Some(memory), Some(at)) => Ok(Plain { memory, at, length }),
            _ => Err(Error::new(Code::NoMemory)),
        }
    }

    pub(crate) fn dirty(&mut self) -> usize {
        // Safety: the memory is open. It reads pages that others could store to; there are no others.
        unsafe { ffi::famsync_memory_dirty(self.memory.as_ptr()) }
    }

    pub(crate) fn touch(&mut self, offset: u64, count: u64) -> Result<(), Error> {
        let fits = usize::try_from(offset).ok().zip(usize::try_from(count).ok());
        let (offset, count) = fits.ok_or(Error::new(Code::Argument))?;
        // Safety: the memory is open.
        check(unsafe { ffi::famsync_memory_touch(self.memory.as_ptr(), offset, count) })
    }

    pub(crate) fn length(&self) -> usize {
        self.length
    }

    /// Notes the length that the memory has now.
    pub(crate) fn measure(&mut self) {
        // Safety: the memory is open.
        self.length = unsafe { ffi::famsync_memory_length(self.memory.as_ptr()) };
    }

    pub(crate) fn bytes_mut(&mut self) -> &mut [u8] {
        // Safety: there are so many bytes, which can be stored to by the library's handler, and whoever could use them
        // meanwhile, the library in a commit too, borrows this.
        unsafe { slice::from_raw_parts_mut(self.at.as_ptr(), self.length) }
    }
}

impl Drop for Plain {
    fn drop(&mut self) {
        // Safety: it is closed once, and nobody has a slice of it any more. It always succeeds.
        unsafe { ffi::famsync_memory_close(self.memory.as_ptr()) };
    }
}

/// As what those see the memory who share it: bytes that nobody changes, or words that each may store to.
#[derive(Clone, Copy, Debug, PartialEq, Eq)]
enum View {
    Bytes,
    Words,
}

/// A file of the volume, with its plain memory where that is open.
pub(crate) struct Slot {
    name: CString,
    plain: OnceLock<Plain>,
    /// What was asked for first since the memory was borrowed exclusively.
    view: OnceLock<View>,
}

impl Slot {
    pub(crate) fn new(name: CString) -> Slot {
        Slot { name, plain: OnceLock::new(), view: OnceLock::new() }
    }

    pub(crate) fn name(&self) -> &CStr {
        &self.name
    }

    pub(crate) fn is_named(&self, name: &str) -> bool {
        self.name.as_bytes() == name.as_bytes()
    }

    /// Opens the memory where it isn't open; one thread at a time calls this.
    pub(crate) fn open(&self, session: &Session) -> Result<(), Error> {
        if self.plain.get().is_none() {
            let plain = Plain::open(session, &self.name, None)?;
            self.plain.get_or_init(|| plain);
        }
        Ok(())
    }

    /// Opens the memory at an address; one thread at a time calls this.
    pub(crate) fn open_at(&self, session: &Session, address: usize) -> Result<(), Error> {
        let plain = Plain::open(session, &self.name, Some(address))?;
        self.plain.get_or_init(|| plain);
        Ok(())
    }

    pub(crate) fn is_open(&self) -> bool {
        self.plain.get().is_some()
    }

    /// The memory, where it is open, for whoever has it alone: all views are over.
    pub(crate) fn plain_mut(&mut self) -> Option<&mut Plain> {
        self.view.take();
        self.plain.get_mut()
    }

    pub(crate) fn close(&mut self) {
        self.view.take();
        self.plain.take();
    }

    /// The memory, which is open, as one that is shared with this view.
    fn shared(&self, view: View) -> Result<&Plain, Error> {
        let plain = self.plain.get().ok_or(Error::new(Code::Argument))?;
        let taken = *self.view.get_or_init(|| view);
        if taken == view {
            return Ok(plain);
        }
        let message =
            format!("{:?} is shared already, as {}", self.name, if taken == View::Words { "words" } else { "bytes" });
        Err(Error::with_message(Code::Overlap, message))
    }

    pub(crate) fn bytes(&self) -> Result<&[u8], Error> {
        let plain = self.shared(View::Bytes)?;
        // Safety: there are so many bytes. As long as it is shared, this view is the only one, and nobody stores: the
        // library does so only as it opens the memory.
        Ok(unsafe { slice::from_raw_parts(plain.at.as_ptr(), plain.length) })
    }

    pub(crate) fn words(&self) -> Result<&[AtomicU64], Error> {
        let plain = self.shared(View::Words)?;
        // Safety: there are so many whole words, which begin with a page, and can be stored to by the library's
        // handler. As long as it is shared, this view is the only one, and the library reads as is said above.
        Ok(unsafe { slice::from_raw_parts(plain.at.as_ptr().cast(), plain.length / 8) })
    }
}
