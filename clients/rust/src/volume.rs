use crate::error::{check, Code, Error};
use crate::group::Group;
use crate::memory::{Plain, Slot};
use crate::{ffi, Options, Plan};
use std::array;
use std::ffi::{c_int, CStr};
use std::mem::{self, ManuallyDrop};
use std::ops::{Bound, RangeBounds};
use std::os::fd::{AsFd, AsRawFd};
use std::path::Path;
use std::ptr::{self, NonNull};
use std::sync::atomic::{AtomicU64, Ordering};
use std::sync::{Mutex, MutexGuard, PoisonError};
use std::{fmt, process};

/// The handle of a session, which ends when this is dropped.
pub(crate) struct Session(NonNull<ffi::Famsync>);

// Safety: any number of threads may call with one handle; the calls take turns.
unsafe impl Send for Session {}
unsafe impl Sync for Session {}

impl Session {
    pub(crate) fn handle(&self) -> *mut ffi::Famsync {
        self.0.as_ptr()
    }

    fn close(self) -> c_int {
        let session = ManuallyDrop::new(self);
        // Safety: it isn't dropped then, and no other call is under way, as the session was given away.
        unsafe { ffi::famsync_close(session.handle()) }
    }

    fn files(&self) -> u32 {
        // Safety: the session is open.
        unsafe { ffi::famsync_files(self.handle()) }
    }

    fn file_name(&self, file: u32) -> &CStr {
        // Safety: the session is open and has this file, whose name stays until it ends.
        unsafe { CStr::from_ptr(ffi::famsync_file_name(self.handle(), file)) }
    }

    fn file_length(&self, file: u32) -> u64 {
        // Safety: the session is open.
        unsafe { ffi::famsync_file_length(self.handle(), file) }
    }

    fn file_capacity(&self, file: u32) -> u64 {
        // Safety: the session is open.
        unsafe { ffi::famsync_capacity(self.handle(), file) }
    }
}

impl Drop for Session {
    fn drop(&mut self) {
        // Safety: it ends once, after all memory was closed, and no other call is under way.
        unsafe { ffi::famsync_close(self.handle()) };
    }
}

/// How many volumes the process has opened.
static SERIALS: AtomicU64 = AtomicU64::new(0);

/// A file of a volume.
#[derive(Clone, Copy, Debug, PartialEq, Eq)]
#[non_exhaustive]
pub struct File<'a> {
    /// Its name.
    pub name: &'a str,
    /// Its length in bytes, as this session has set it.
    pub length: u64,
    /// Its capacity: the greatest length that it can have.
    pub capacity: u64,
}

/// A session with a volume, which is locked until this is dropped or [closed](Volume::close).
///
/// Its changes become durable together, by [`commit`](Volume::commit). Even if this process is killed or the system
/// crashes, the next session finds the files as they were at one commit: the last acknowledged one, or a later one.
///
/// There are two ways to the bytes of a file: plain memory ([`memory_mut`](Volume::memory_mut),
/// [`words`](Volume::words)), and calls ([`read`](Volume::read), [`write`](Volume::write)).
///
/// Threads share a volume by reference for everything but [`memory_mut`](Volume::memory_mut) and its like, which need
/// it alone: in an `RwLock`, or before and after a scope of threads.
pub struct Volume {
    /// One for each file; dropped before the session, which can't end as long as memory is open.
    slots: Box<[Slot]>,
    session: Session,
    /// Whoever has this may open memory.
    opening: Mutex<()>,
    /// Whether the session only reads.
    readonly: bool,
    /// The number of the open transaction; 0 if none is open.
    transaction: u64,
    /// The number of this volume among those that the process has opened.
    serial: u64,
    /// The number of the process that opened it.
    process: u32,
}

impl Volume {
    /// Opens a volume with the usual [`Options`].
    pub fn open(path: impl AsRef<Path>) -> Result<Volume, Error> {
        Options::new().open(path)
    }

    /// Makes a volume where no file is yet, and opens it. [`Plan::make`] makes it alone.
    pub fn create(path: impl AsRef<Path>, plan: &Plan) -> Result<Volume, Error> {
        plan.make(path.as_ref())?;
        Volume::open(path)
    }

    /// Takes over the handle of a session.
    pub(crate) fn of(handle: NonNull<ffi::Famsync>, readonly: bool) -> Volume {
        let session = Session(handle);
        let slots = (0..session.files()).map(|file| Slot::new(session.file_name(file).into())).collect();
        let serial = SERIALS.fetch_add(1, Ordering::Relaxed);
        Volume { slots, session, opening: Mutex::new(()), readonly, transaction: 0, serial, process: process::id() }
    }

    /// Ends the session, as dropping it does, and returns whether that succeeded. Changes since the last commit are
    /// lost. [`Code::Device`]: a write or a sync failed, now or earlier. What was acknowledged is durable.
    pub fn close(self) -> Result<(), Error> {
        let Volume { slots, session, .. } = self;
        drop(slots);
        check(session.close())
    }

    /// The files of the volume, in its order.
    pub fn files(&self) -> impl Iterator<Item = File<'_>> + '_ {
        self.slots.iter().zip(0..).map(|(slot, number)| File {
            name: slot.name().to_str().unwrap_or_default(),
            length: self.session.file_length(number),
            capacity: self.session.file_capacity(number),
        })
    }

    /// The most pages of 4,096 bytes that a commit of this session can have.
    pub fn frames(&self) -> usize {
        // Safety: the session is open.
        unsafe { ffi::famsync_frames(self.session.handle()) as usize }
    }

    /// Makes all changes of this session durable, all of them or none. It returns when they are durable. The result is
    /// the commit's number, counted from 1 in each session.
    ///
    /// Threads that call it during a commit share the next one. If it is refused, all changes still wait, and the next
    /// call commits them. [`Code::NoFrame`]: the changed pages are more than one commit can have, and no later call can
    /// commit them either. [`Code::NoSpace`]: the disk is full. [`Code::Device`]: a write or a sync failed, and the
    /// session is over. Each later call returns [`Code::Broken`].
    ///
    /// No slice of [`memory_mut`](Volume::memory_mut) may live meanwhile, which the compiler checks:
    ///
    /// ```compile_fail,E0502
    /// fn pay(volume: &mut famsync::Volume) -> Result<(), famsync::Error> {
    ///     let bank = volume.memory_mut("bank")?;
    ///     bank[0] = 1;
    ///     volume.commit()?;
    ///     bank[0] = 2;
    ///     Ok(())
    /// }
    /// ```
    pub fn commit(&self) -> Result<u64, Error> {
        let mut mark = 0;
        // Safety: the session is open. No `&mut` to plain memory lives, as that would borrow the volume exclusively.
        check(unsafe { ffi::famsync_msync(self.session.handle(), &mut mark) })?;
        Ok(mark)
    }

    /// Undoes all changes since the last commit: stores to plain memory, writes and lengths. If it fails, nothing is
    /// undone. After [`Code::System`] a part may be; then commits are refused until a rollback succeeds.
    ///
    /// Within a [`transaction`](Volume::transaction) it ends the transaction.
    pub fn rollback(&mut self) -> Result<(), Error> {
        let handle = self.session.handle();
        // Safety: the session is open, and nobody has a slice of plain memory.
        let undone = check(unsafe {
            match self.transaction {
                0 => ffi::famsync_rollback(handle),
                number => ffi::famsync_transaction_rollback(handle, number),
            }
        });
        if undone.is_ok() {
            self.transaction = 0;
        }
        self.slots.iter_mut().filter_map(Slot::plain_mut).for_each(Plain::measure);
        undone
    }

    /// Makes changes and commits them. If `change` returns an error or panics, or the commit is refused, all changes
    /// are rolled back, including those that waited before. If the rollback is refused, its error is returned. Then
    /// commits return [`Code::Transaction`] until a rollback succeeds.
    ///
    /// Within `change` a [`commit`](Volume::commit) or another transaction returns [`Code::Transaction`]. A
    /// [`rollback`](Volume::rollback) ends the transaction. If `change` succeeds after it with further changes, or with
    /// another volume in the place of this one, they are undone, and [`Code::Torn`] is returned.
    ///
    /// ```
    /// # include!(concat!(env!("CARGO_MANIFEST_DIR"), "/tests/volumes/mod.rs"));
    /// # fn main() -> Result<(), famsync::Error> {
    /// # let made = make_volume(5, 16, "bank=8192");
    /// # let mut volume = famsync::Volume::open(made.path())?;
    /// volume.transaction(|volume| -> Result<(), famsync::Error> {
    ///     let bank = volume.memory_mut("bank")?;
    ///     bank[3] += 7;
    ///     bank[4099] += 7;
    ///     Ok(())
    /// })?;
    /// # Ok(())
    /// # }
    /// ```
    pub fn transaction<T, E: From<Error>>(&mut self, change: impl FnOnce(&mut Volume) -> Result<T, E>) -> Result<T, E> {
        let (serial, number) = (self.serial, self.begin_transaction()?);
        let mut undo = Undo(Some(self));
        let changed = change(undo.volume()).and_then(|answer| {
            undo.volume().commit_transaction(serial, number)?;
            Ok(answer)
        });
        match changed {
            Ok(answer) => {
                undo.0 = None;
                Ok(answer)
            }
            Err(error) => undo.now().map_or(Err(error), |refused| Err(refused.into())),
        }
    }

    /// Begins a group of this thread, which ends when it is dropped. Each commit has all changes that the thread makes
    /// meanwhile, or none of them. Any number of threads can hold groups. A commit of another thread waits until no
    /// group is open, and groups that would begin meanwhile wait for it.
    ///
    /// The thread that holds a group can't commit: that returns [`Code::Busy`] at once. A group within a group of the
    /// same thread is a part of it. If the thread panics, the changes made so far still wait for a commit.
    /// [`Code::Torn`] from commits: a thread ended within a group that it had leaked.
    ///
    /// To prevent deadlocks, take groups of several volumes, and locks, in the same order in all threads.
    ///
    /// ```
    /// # include!(concat!(env!("CARGO_MANIFEST_DIR"), "/tests/volumes/mod.rs"));
    /// # use std::sync::atomic::Ordering;
    /// # fn main() -> Result<(), famsync::Error> {
    /// # let made = make_volume(5, 16, "bank=8192");
    /// # let volume = famsync::Volume::open(made.path())?;
    /// let bank = volume.words("bank")?;
    /// std::thread::scope(|scope| {
    ///     scope.spawn(|| -> Result<(), famsync::Error> {
    ///         let _group = volume.group()?;
    ///         bank[3].fetch_sub(7, Ordering::Release);
    ///         bank[900].fetch_add(7, Ordering::Release);
    ///         Ok(())
    ///     });
    ///     scope.spawn(|| volume.commit()); // both or neither
    /// });
    /// # Ok(())
    /// # }
    /// ```
    pub fn group(&self) -> Result<Group<'_>, Error> {
        Group::begin(&self.session)
    }

    fn begin_transaction(&mut self) -> Result<u64, Error> {
        // Safety: the session is open.
        check(unsafe { ffi::famsync_transaction_begin(self.session.handle(), &mut self.transaction) })?;
        Ok(self.transaction)
    }

    /// Commits the transaction with this number, which the volume with this serial number began.
    fn commit_transaction(&mut self, serial: u64, number: u64) -> Result<(), Error> {
        if serial != self.serial {
            let message = "the volume was exchanged for another one within its transaction".into();
            return Err(Error::with_message(Code::Torn, message));
        }
        // Safety: the session is open, and nobody has a slice of plain memory.
        check(unsafe { ffi::famsync_transaction_commit(self.session.handle(), number, ptr::null_mut()) })?;
        self.transaction = 0;
        Ok(())
    }

    /// The number of the last acknowledged commit; 0 if there is none.
    pub fn acknowledged(&self) -> u64 {
        // Safety: the session is open.
        unsafe { ffi::famsync_acknowledged(self.session.handle()) }
    }

    /// Sets the length of a file, as `ftruncate` does. [`Code::Einval`]: the length is more than the file's capacity.
    /// Bytes past a new end are lost, and the bytes that a file grows by are zeros.
    /// The length is durable after the next commit. The pages that a file grows by, and the page in which it ended,
    /// count as written. [`Code::NoFrame`]: they and the other waiting pages are more than one commit can have.
    ///
    /// [`Code::Busy`]: plain memory of the file is open, so a slice of it may exist. See [`resize`](Volume::resize).
    pub fn set_length(&self, file: &str, length: u64) -> Result<(), Error> {
        let (_, slot) = self.slot(file)?;
        let _closed = self.hold_off_opening();
        if slot.is_open() && !self.readonly {
            return Err(Error::with_message(Code::Busy, format!("memory of {file:?} is open")));
        }
        self.set_length_of(slot, length)
    }

    /// Sets the length of a file as [`set_length`](Volume::set_length) does. If its memory is open, that grows or
    /// shrinks in place.
    ///
    /// ```
    /// # include!(concat!(env!("CARGO_MANIFEST_DIR"), "/tests/volumes/mod.rs"));
    /// # fn main() -> Result<(), famsync::Error> {
    /// # let made = make_volume(5, 16, "log=4096/8192");
    /// # let mut volume = famsync::Volume::open(made.path())?;
    /// volume.memory_mut("log")?[0] = 1;
    /// volume.resize("log", 8192)?;
    /// volume.memory_mut("log")?[8191] = 2;
    /// volume.commit()?;
    /// # Ok(())
    /// # }
    /// ```
    pub fn resize(&mut self, file: &str, length: u64) -> Result<(), Error> {
        self.set_length_of(self.slot(file)?.1, length)?;
        if let Some(plain) = self.slot_mut(file)?.plain_mut() {
            plain.measure();
        }
        Ok(())
    }

    /// Nobody has a slice of memory of the file that may become shorter.
    fn set_length_of(&self, slot: &Slot, length: u64) -> Result<(), Error> {
        // Safety: the session is open, and the name ends with a null byte.
        check(unsafe { ffi::famsync_setlength(self.session.handle(), slot.name().as_ptr(), length) })
    }

    fn slot(&self, file: &str) -> Result<(u32, &Slot), Error> {
        let named = (0..).zip(self.slots.iter()).find(|(_, slot)| slot.is_named(file));
        named.ok_or_else(|| Error::with_message(Code::NoFile, format!("the volume has no file {file:?}")))
    }

    fn slot_mut(&mut self, file: &str) -> Result<&mut Slot, Error> {
        let (number, _) = self.slot(file)?;
        Ok(&mut self.slots[number as usize])
    }
}

/// Plain memory: a whole file as memory of this process, which is filled from the volume when it is first asked for.
///
/// The first store to a page since a commit is a fault that a handler of SIGSEGV serves, which the library installs.
/// Faults elsewhere, also those by which Rust finds that a stack has overflowed, go to the handler that was there
/// before. A program that installs one later has to call the library's. The kernel doesn't store through a handler: to
/// read a file into this memory fails with `EFAULT` where the page wasn't stored to; read into a buffer, and copy.
///
/// An empty file has no memory ([`Code::Argument`]).
impl Volume {
    /// The bytes of a file, as they were stored.
    ///
    /// [`Code::Overlap`] where they are [`words`](Volume::words) to somebody who shares the volume.
    ///
    /// The slice is a mapping of the volume's file, so it is only as safe as this file. The lock doesn't stop programs
    /// that ignore it:
    ///
    /// - If anybody writes to the file by other means, the bytes of the slice can change while it lives. Then Rust's
    ///   rules for a slice are broken.
    /// - If the file is truncated or can't be read, a load raises SIGBUS, which ends the process.
    /// - In a forked process, the slice can show bytes that the parent committed later.
    ///
    /// With [`resident`](Options::resident) none of this happens: the slice is memory of this process, which is read
    /// when the memory is opened.
    pub fn memory(&self, file: &str) -> Result<&[u8], Error> {
        self.opened(file)?.bytes()
    }

    /// The bytes of a file, to be stored to. A page that wasn't stored to since the last commit can change or fault as
    /// in [`memory`](Volume::memory), which [`resident`](Options::resident) prevents.
    ///
    /// ```
    /// # include!(concat!(env!("CARGO_MANIFEST_DIR"), "/tests/volumes/mod.rs"));
    /// # fn main() -> Result<(), famsync::Error> {
    /// # let made = make_volume(5, 16, "bank=8192");
    /// # let path = &made.path();
    /// let mut volume = famsync::Volume::open(path)?;
    /// let bank = volume.memory_mut("bank")?;
    /// bank[3] += 7;
    /// bank[4099] += 7;
    /// volume.commit()?; // both or neither
    /// drop(volume);
    ///
    /// let volume = famsync::Volume::open(path)?;
    /// assert_eq!((volume.memory("bank")?[3], volume.memory("bank")?[4099]), (7, 7));
    /// # Ok(())
    /// # }
    /// ```
    ///
    /// Threads may store to parts of it. Nobody commits before they are done:
    ///
    /// ```
    /// # include!(concat!(env!("CARGO_MANIFEST_DIR"), "/tests/volumes/mod.rs"));
    /// # fn main() -> Result<(), famsync::Error> {
    /// # let made = make_volume(5, 16, "bank=8192");
    /// # let mut volume = famsync::Volume::open(made.path())?;
    /// std::thread::scope(|scope| -> Result<(), famsync::Error> {
    ///     for part in volume.memory_mut("bank")?.chunks_mut(2048) {
    ///         scope.spawn(|| part.fill(7));
    ///     }
    ///     Ok(())
    /// })?;
    /// volume.commit()?;
    /// # Ok(())
    /// # }
    /// ```
    ///
    /// It ends with the volume:
    ///
    /// ```compile_fail,E0505
    /// fn end(mut volume: famsync::Volume) {
    ///     let bank = volume.memory_mut("bank").unwrap();
    ///     drop(volume);
    ///     bank[0] = 1;
    /// }
    /// ```
    ///
    /// and isn't to be had twice:
    ///
    /// ```compile_fail,E0499
    /// fn twice(volume: &mut famsync::Volume) {
    ///     let bank = volume.memory_mut("bank").unwrap();
    ///     let again = volume.memory_mut("bank").unwrap();
    ///     bank[0] = again[0];
    /// }
    /// ```
    pub fn memory_mut(&mut self, file: &str) -> Result<&mut [u8], Error> {
        let [bytes] = self.memories_mut([file])?;
        Ok(bytes)
    }

    /// The bytes of several files, to be stored to; [`Code::Overlap`] where a file is named twice.
    pub fn memories_mut<const N: usize>(&mut self, files: [&str; N]) -> Result<[&mut [u8]; N], Error> {
        self.check_writes()?;
        for (place, file) in files.iter().enumerate() {
            if files[..place].contains(file) {
                return Err(Error::with_message(Code::Overlap, format!("{file:?} is named twice")));
            }
            self.opened(file)?;
        }
        let mut bytes: [&mut [u8]; N] = array::from_fn(|_| Default::default());
        for slot in self.slots.iter_mut() {
            if let Some(place) = files.iter().position(|file| slot.is_named(file)) {
                bytes[place] = slot.plain_mut().map(Plain::bytes_mut).unwrap_or_default();
            }
        }
        Ok(bytes)
    }

    /// Opens the memory of a file at an address, so that the file can contain pointers into itself. [`Code::Address`]:
    /// other memory is between one page before the address and one page past the file's capacity. [`Code::Overlap`]:
    /// the memory of the file is open.
    ///
    /// ```
    /// # include!(concat!(env!("CARGO_MANIFEST_DIR"), "/tests/volumes/mod.rs"));
    /// # fn main() -> Result<(), famsync::Error> {
    /// # let made = make_volume(5, 16, "heap=8192");
    /// let mut volume = famsync::Volume::open(made.path())?;
    /// volume.open_memory_at("heap", 0x2000_0000_0000)?;
    /// assert_eq!(volume.memory_mut("heap")?.as_ptr() as usize, 0x2000_0000_0000);
    /// # Ok(())
    /// # }
    /// ```
    pub fn open_memory_at(&self, file: &str, address: usize) -> Result<(), Error> {
        let (_, slot) = self.slot(file)?;
        let _mine = self.hold_off_opening();
        slot.open_at(&self.session, address)
    }

    /// The whole words of a file, in this machine's order of bytes: those who share the volume may store to them, also
    /// while others commit.
    ///
    /// There is one moment within [`commit`](Volume::commit), and the commit has exactly the stores before it, by all
    /// threads, to all words of the volume. Stores by `Ordering::Release` keep the order in which a thread makes them.
    /// A commit may separate several stores that belong together. To prevent that, make them in a
    /// [`group`](Volume::group), or keep the volume in an `RwLock` and use [`memory_mut`](Volume::memory_mut).
    ///
    /// ```
    /// # include!(concat!(env!("CARGO_MANIFEST_DIR"), "/tests/volumes/mod.rs"));
    /// # use std::sync::atomic::Ordering;
    /// # fn main() -> Result<(), famsync::Error> {
    /// # let made = make_volume(5, 16, "counts=8192");
    /// # let volume = famsync::Volume::open(made.path())?;
    /// let counts = volume.words("counts")?;
    /// std::thread::scope(|scope| {
    ///     scope.spawn(|| counts[0].fetch_add(1, Ordering::Release));
    ///     scope.spawn(|| volume.commit());
    /// });
    /// volume.commit()?;
    /// # Ok(())
    /// # }
    /// ```
    ///
    /// [`Code::Overlap`] where they are bytes, by [`memory`](Volume::memory), to somebody who shares the volume. Once
    /// [`memory_mut`](Volume::memory_mut) was asked for the file, it may be shared in the other way.
    pub fn words(&self, file: &str) -> Result<&[AtomicU64], Error> {
        self.check_writes()?;
        self.opened(file)?.words()
    }

    /// How many pages of a file were stored to since the last commit; one that has the bytes that it had may count or
    /// not. One commit can have [`frames`](Volume::frames) of them.
    pub fn dirty(&mut self, file: &str) -> Result<usize, Error> {
        Ok(self.slot_mut(file)?.plain_mut().map(Plain::dirty).unwrap_or_default())
    }

    /// Closes the memory of a file, if it is open. Its stores since the last commit are lost. If a refused commit had
    /// already taken a part of them, commits are refused until a rollback ([`Code::Torn`]).
    pub fn close_memory(&mut self, file: &str) -> Result<(), Error> {
        self.slot_mut(file)?.close();
        Ok(())
    }

    /// Opens the pages of a range of a file ahead, as a store to each of them would. Until the next commit the kernel
    /// can store to them, as by [`std::io::Read::read`], and stores raise no fault. All of them count as stored to.
    /// [`Code::NoFrame`]: they are more than one commit can have.
    ///
    /// ```
    /// # include!(concat!(env!("CARGO_MANIFEST_DIR"), "/tests/volumes/mod.rs"));
    /// # use std::io::Read;
    /// # fn main() -> Result<(), famsync::Error> {
    /// # let made = make_volume(5, 16, "bank=8192");
    /// let mut volume = famsync::Volume::open(made.path())?;
    /// volume.touch("bank", ..100)?;
    /// let mut zeros = std::fs::File::open("/dev/zero").unwrap();
    /// zeros.read_exact(&mut volume.memory_mut("bank")?[..100]).unwrap();
    /// volume.commit()?;
    /// # Ok(())
    /// # }
    /// ```
    pub fn touch(&mut self, file: &str, range: impl RangeBounds<u64>) -> Result<(), Error> {
        self.opened(file)?;
        let plain = self.slot_mut(file)?.plain_mut().ok_or(Error::new(Code::Argument))?;
        let bytes = part(range, plain.length() as u64);
        let (begin, count) =
            bytes.ok_or_else(|| Error::with_message(Code::Argument, "the range ends before it begins".to_string()))?;
        plain.touch(begin, count)
    }

    /// Refuses what a session that only reads can't do.
    fn check_writes(&self) -> Result<(), Error> {
        if self.readonly {
            return Err(Error::new(Code::ReadOnly));
        }
        Ok(())
    }

    /// Nobody else opens memory until this is dropped.
    fn hold_off_opening(&self) -> MutexGuard<'_, ()> {
        self.opening.lock().unwrap_or_else(PoisonError::into_inner)
    }

    /// The slot of a file, with its memory open.
    fn opened(&self, file: &str) -> Result<&Slot, Error> {
        let (_, slot) = self.slot(file)?;
        if !slot.is_open() {
            let _opening = self.hold_off_opening();
            slot.open(&self.session)?;
        }
        Ok(slot)
    }
}

/// Read and write: any bytes of a file, by a call and a copy.
///
/// ```
/// # include!(concat!(env!("CARGO_MANIFEST_DIR"), "/tests/volumes/mod.rs"));
/// # fn main() -> Result<(), famsync::Error> {
/// # let made = make_volume(5, 16, "log=8192");
/// # let volume = famsync::Volume::open(made.path())?;
/// volume.write("log", 5000, b"hello")?;
/// volume.commit()?;
/// let mut found = [0; 5];
/// assert_eq!(volume.read("log", 5000, &mut found)?, 5);
/// assert_eq!(&found, b"hello");
/// # Ok(())
/// # }
/// ```
impl Volume {
    /// Reads bytes of a file from an offset on, as they were written last, and returns their number. At the file's end
    /// it reads fewer bytes. If it fails on the way, [`Error::done`] is the number of bytes read.
    ///
    /// If memory of the file is open, it is read, as by [`memory`](Volume::memory). [`Code::Overlap`]: the memory is
    /// shared as [`words`](Volume::words).
    pub fn read(&self, file: &str, offset: u64, bytes: &mut [u8]) -> Result<usize, Error> {
        let (number, slot) = self.slot(file)?;
        self.check_process()?;
        let _opening = self.hold_off_opening();
        if slot.is_open() {
            slot.bytes()?;
        }
        let (handle, at, count, mut done) = (self.session.handle(), bytes.as_mut_ptr().cast(), bytes.len(), 0);
        // Safety: the session is open, and there is room for so many bytes. Nobody stores to memory that it reads.
        let read = check(unsafe { ffi::famsync_read(handle, number, offset, at, count, &mut done) });
        read.map(|()| done).map_err(|error| error.after(done))
    }

    /// Writes bytes to a file from an offset on. They wait for [`commit`](Volume::commit). [`Code::Einval`]: a byte
    /// lies past the file's end. [`Code::NoFrame`]: the next commit has no room for their pages. In both cases nothing
    /// is written. If it fails on the way, [`Error::done`] is the number of bytes written.
    ///
    /// [`Code::Overlap`]: memory of the file is open, and others may share it. Use
    /// [`memory_mut`](Volume::memory_mut), or call [`close_memory`](Volume::close_memory) before.
    pub fn write(&self, file: &str, offset: u64, bytes: &[u8]) -> Result<(), Error> {
        let (number, slot) = self.slot(file)?;
        self.check_process()?;
        let _opening = self.hold_off_opening();
        if slot.is_open() {
            return Err(Error::with_message(Code::Overlap, format!("memory of {file:?} is open")));
        }
        let (handle, at, count, mut done) = (self.session.handle(), bytes.as_ptr().cast(), bytes.len(), 0);
        // Safety: the session is open, and there are so many bytes. The file's memory isn't open.
        let written = check(unsafe { ffi::famsync_write(handle, number, offset, at, count, &mut done) });
        written.map_err(|error| error.after(done))
    }

    /// In a process that was forked another thread may have had the lock.
    fn check_process(&self) -> Result<(), Error> {
        if process::id() != self.process {
            return Err(Error::new(Code::Forked));
        }
        Ok(())
    }
}

/// Numbers of a session, which [`Volume::stat`] returns. System calls are counted since the opening, including those
/// that failed or were interrupted.
#[derive(Clone, Copy, Debug, PartialEq, Eq)]
#[non_exhaustive]
pub struct Stat {
    /// The number of the last commit that was acknowledged.
    pub commits: u64,
    /// The most pages of one commit.
    pub frames: u64,
    /// Pages that wait for a commit, including those of plain memory.
    pub staged: u64,
    /// Blocks of the log that are in use.
    pub unwritten: u64,
    /// Reads of the volume's file.
    pub reads: u64,
    /// Writes to it.
    pub writes: u64,
    /// Syncs of it.
    pub syncs: u64,
    /// Bytes that were written to it.
    pub bytes_written: u64,
    /// Bytes of memory that the sessions of this process take for pages and commits.
    pub memory: u64,
}

/// What a volume is, which [`Volume::info`] returns.
#[derive(Clone, Copy, Debug, PartialEq, Eq)]
#[non_exhaustive]
pub struct Info {
    /// Its layout, 5 or 6.
    pub layout: u64,
    /// The number of its blocks, of 4,096 bytes each.
    pub blocks: u64,
    /// The number of its files.
    pub files: u64,
    /// The number of blocks of the log.
    pub log: u64,
    /// The number of the log's blocks in use.
    pub log_used: u64,
    /// The most pages that one commit can have. [`Options::frames`](crate::Options::frames) can set a lower limit, see
    /// [`Volume::frames`].
    pub frames: u64,
    /// Whether the session only reads.
    pub readonly: bool,
}

/// Numbers and backups.
impl Volume {
    /// What the volume is: its layout, its blocks, its log, its greatest commit.
    pub fn info(&self) -> Result<Info, Error> {
        let mut found = ffi::FamsyncVolumeInfo { size: mem::size_of::<ffi::FamsyncVolumeInfo>(), ..Default::default() };
        // Safety: the session is open, and there is as much room as it says.
        check(unsafe { ffi::famsync_volume_info(self.session.handle(), &mut found) })?;
        let ffi::FamsyncVolumeInfo { layout, blocks, files, log, log_used, frames, readonly, .. } = found;
        Ok(Info { layout, blocks, files, log, log_used, frames, readonly: readonly != 0 })
    }

    /// Numbers of this session. As [`dirty`](Volume::dirty) it looks at plain memory, so nobody may store meanwhile.
    pub fn stat(&mut self) -> Result<Stat, Error> {
        let mut found = ffi::FamsyncStat { size: mem::size_of::<ffi::FamsyncStat>(), ..Default::default() };
        // Safety: the session is open, and there is as much room as it says.
        check(unsafe { ffi::famsync_stat(self.session.handle(), &mut found) })?;
        let ffi::FamsyncStat {
            commits, frames, staged, unwritten, reads, writes, syncs, bytes_written, memory, ..
        } = found;
        Ok(Stat { commits, frames, staged, unwritten, reads, writes, syncs, bytes_written, memory })
    }

    /// Writes a clean volume with the files of the last acknowledged commit to a file. This backup can be opened as it
    /// is. Other threads may commit meanwhile.
    ///
    /// The file is a regular one, other than the volume's, open for reading and writing, and not for appending
    /// ([`Code::Argument`]). The library empties it first, and syncs it at the end. If its name is new, sync its
    /// folder, too. [`Code::Busy`] if another backup is being made. [`Code::InUse`] if somebody else has the file
    /// locked.
    ///
    /// ```
    /// # include!(concat!(env!("CARGO_MANIFEST_DIR"), "/tests/volumes/mod.rs"));
    /// # fn main() -> Result<(), Box<dyn std::error::Error>> {
    /// # let made = make_volume(5, 16, "bank=8192");
    /// # let (volume, path) = (famsync::Volume::open(made.path())?, made.beside("copy.vol"));
    /// let file = std::fs::OpenOptions::new().read(true).write(true).create_new(true).open(&path)?;
    /// volume.backup(&file)?;
    /// # famsync::Volume::open(&path)?;
    /// # Ok(())
    /// # }
    /// ```
    pub fn backup(&self, file: impl AsFd) -> Result<(), Error> {
        // Safety: the session is open, and so is the file.
        check(unsafe { ffi::famsync_backup(self.session.handle(), file.as_fd().as_raw_fd()) })
    }
}

/// Rolls a volume back as it goes, also where a panic comes.
struct Undo<'a>(Option<&'a mut Volume>);

impl Undo<'_> {
    fn volume(&mut self) -> &mut Volume {
        self.0.as_mut().unwrap()
    }

    /// Rolls it back, and answers why that was refused. A session that is over has nothing to undo.
    fn now(&mut self) -> Option<Error> {
        let error = self.0.take()?.rollback().err()?;
        (error.code() != Code::Broken).then_some(error)
    }
}

impl Drop for Undo<'_> {
    fn drop(&mut self) {
        self.now();
    }
}

/// The first byte of a range of a file with this length, and how many there are.
fn part(range: impl RangeBounds<u64>, file_length: u64) -> Option<(u64, u64)> {
    let begin = match range.start_bound() {
        Bound::Included(first) => *first,
        Bound::Excluded(before) => before.checked_add(1)?,
        Bound::Unbounded => 0,
    };
    let end = match range.end_bound() {
        Bound::Included(last) => last.checked_add(1)?,
        Bound::Excluded(end) => *end,
        Bound::Unbounded => file_length,
    };
    end.checked_sub(begin).map(|length| (begin, length))
}

impl fmt::Debug for Volume {
    fn fmt(&self, formatter: &mut fmt::Formatter<'_>) -> fmt::Result {
        let files: Vec<_> = self.files().collect();
        formatter.debug_struct("Volume").field("files", &files).finish_non_exhaustive()
    }
}
