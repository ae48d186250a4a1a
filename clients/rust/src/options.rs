use crate::error::{check, Code, Error};
use crate::{ffi, Volume};
use std::ffi::{c_int, c_uint, CString};
use std::mem;
use std::os::unix::ffi::OsStrExt;
use std::path::Path;
use std::ptr::{self, NonNull};
use std::time::Duration;

/// `FAMSYNC_MESSAGE_SIZE` of famsync.h.
pub(crate) const MESSAGE: usize = 9000;

/// How a volume is opened.
///
/// ```
/// # include!(concat!(env!("CARGO_MANIFEST_DIR"), "/tests/volumes/mod.rs"));
/// # fn main() -> Result<(), famsync::Error> {
/// # let made = make_volume(5, 16, "bank=8192");
/// # let path = &made.path();
/// let volume = famsync::Options::new().frames(8).foreground(true).open(path)?;
/// assert_eq!(volume.frames(), 8);
/// # Ok(())
/// # }
/// ```
#[derive(Clone, Debug, Default)]
pub struct Options {
    trust: bool,
    frames: u32,
    copies: u32,
    foreground: bool,
    wait: Duration,
    readonly: bool,
    resident: bool,
    budget: usize,
    kernel_tracking: bool,
}

impl Options {
    /// The options of [`Volume::open`]: no trust, as many pages in a commit as the volume allows, a thread in the
    /// background, no waiting, and a session that writes.
    pub fn new() -> Options {
        Options::default()
    }

    /// Whether to open a volume that is flagged as suspect, and remove the flag.
    pub fn trust(&mut self, trust: bool) -> &mut Options {
        self.trust = trust;
        self
    }

    /// The most pages of one commit; 0 means as many as the volume allows.
    pub fn frames(&mut self, frames: u32) -> &mut Options {
        self.frames = frames;
        self
    }

    /// Ignored.
    pub fn copies(&mut self, copies: u32) -> &mut Options {
        self.copies = copies;
        self
    }

    /// Whether the library has no thread of its own. A part of a commit's writes comes after its acknowledgement.
    /// Without a thread the next commit makes them; otherwise the thread does while no call is in progress.
    pub fn foreground(&mut self, foreground: bool) -> &mut Options {
        self.foreground = foreground;
        self
    }

    /// How long to wait for a volume that is in use, in whole milliseconds, before [`Code::InUse`].
    pub fn wait(&mut self, wait: Duration) -> &mut Options {
        self.wait = wait;
        self
    }

    /// Whether the session only reads. Any number of them share a volume, while no other one has it. Calls that would
    /// change something are refused by [`Code::ReadOnly`]. A volume that a crash left is refused by
    /// [`Code::NeedsOpening`]: open it once for writing.
    pub fn readonly(&mut self, readonly: bool) -> &mut Options {
        self.readonly = readonly;
        self
    }

    /// Whether a file is read whole to open its plain memory, instead of mapping the volume's file. Otherwise a load
    /// raises SIGBUS if that file can't be read or was truncated, and a forked process may see later commits.
    pub fn resident(&mut self, resident: bool) -> &mut Options {
        self.resident = resident;
        self
    }

    /// The most bytes of committed pages that plain memory keeps, with a copy of each; 0 means 64 MB.
    pub fn budget(&mut self, bytes: usize) -> &mut Options {
        self.budget = bytes;
        self
    }

    /// Whether the kernel notes stores to plain memory, including its own, without a handler of SIGSEGV. If it can't,
    /// [`Code::Tracking`]. Threads may not store to [`words`](Volume::words) during a commit then: [`Code::Busy`]. It
    /// excludes [`resident`](Options::resident).
    pub fn kernel_tracking(&mut self, kernel_tracking: bool) -> &mut Options {
        self.kernel_tracking = kernel_tracking;
        self
    }

    /// Opens a volume: a regular file with one name that `famsync format` made. It is locked until the volume is
    /// dropped. The error says in words what is wrong with which file.
    pub fn open(&self, path: impl AsRef<Path>) -> Result<Volume, Error> {
        let name = CString::new(path.as_ref().as_os_str().as_bytes())
            .map_err(|_| Error::with_message(Code::Argument, "a path has no null byte".to_string()))?;
        let mut message = vec![0u8; MESSAGE];
        let options = ffi::FamsyncOptions {
            size: mem::size_of::<ffi::FamsyncOptions>(),
            trust: c_int::from(self.trust),
            frames: c_uint::from(self.frames),
            copies: c_uint::from(self.copies),
            foreground: c_int::from(self.foreground),
            message: message.as_mut_ptr().cast(),
            message_size: message.len(),
            wait_ms: c_uint::try_from(self.wait.as_millis()).unwrap_or(c_uint::MAX),
            readonly: c_int::from(self.readonly),
            resident: c_int::from(self.resident),
            budget: self.budget,
            tracking: if self.kernel_tracking { ffi::FAMSYNC_TRACK_KERNEL } else { ffi::FAMSYNC_TRACK_SIGNALS },
            fixed: 0,
        };
        let mut handle = ptr::null_mut();
        // Safety: the name ends with a null byte, and the options have as much room for a message as they say.
        let opened = check(unsafe { ffi::famsync_open(name.as_ptr(), &options, &mut handle) });
        match (opened, NonNull::new(handle)) {
            (Ok(()), Some(handle)) => Ok(Volume::of(handle, self.readonly)),
            (Ok(()), None) => Err(Error::new(Code::Argument)),
            (Err(error), _) => Err(error.saying(&message)),
        }
    }
}
