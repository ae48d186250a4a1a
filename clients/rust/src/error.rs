//! Errors: the library's codes, each a variant.

use crate::ffi;
use std::ffi::{c_int, CStr};
use std::{fmt, io, ptr};

macro_rules! codes {
    ($($(#[$words:meta])* $name:ident = $number:literal,)*) => {
        /// Why a call was refused: one variant for each code of `famsync.h`, by the same name.
        #[derive(Clone, Copy, Debug, PartialEq, Eq, Hash)]
        #[non_exhaustive]
        pub enum Code {
            $($(#[$words])* $name,)*
            /// A code that this version of the crate doesn't know.
            Other(i32),
        }

        impl Code {
            /// The number that it has in `famsync.h`.
            pub fn number(self) -> i32 {
                match self {
                    $(Code::$name => $number,)*
                    Code::Other(number) => number,
                }
            }
        }

        impl From<i32> for Code {
            fn from(number: i32) -> Code {
                match number {
                    $($number => Code::$name,)*
                    number => Code::Other(number),
                }
            }
        }
    };
}

codes! {
    /// An argument is invalid.
    Argument = -1,
    /// Memory was refused.
    NoMemory = -2,
    /// A system call failed; [`Error::system`] has the cause.
    System = -3,
    /// The volume is open already, in another process or in this one.
    InUse = -6,
    /// An earlier sync of the volume failed; it opens only with [`Options::trust`](crate::Options::trust).
    Suspect = -7,
    /// The volume was opened by the process from which this one was forked.
    Forked = -11,
    /// Only a part of the changes was made, taken or undone: nothing can be committed before a rollback.
    Torn = -12,
    /// The path names no regular file, but a folder, a device, a pipe or a socket.
    NotRegular = -13,
    /// The volume's file has several names, so others could use it by another name.
    Names = -14,
    /// Each time that the volume's file was locked, the path named another file by then.
    Replaced = -15,
    /// The file doesn't begin as a volume.
    NotAVolume = -16,
    /// The file begins as a volume, but its bytes or its length break the format.
    Damaged = -17,
    /// The volume has one of layouts 1 to 4. Copy it with `famsync migrate --layout 5 OLD NEW`.
    Layout = -47,
    /// [`Options::frames`](crate::Options::frames) is more than a commit of this volume can have.
    Shape = -18,
    /// More pages were written, or added to a file, than one commit can have.
    NoFrame = -27,
    /// The disk is full, or a quota is used up; [`Error::system`] has the cause. Nothing changed: the same commit
    /// succeeds once the disk has room.
    NoSpace = -46,
    /// A read, a write or a sync of the volume failed; [`Error::system`] has the cause.
    Device = -28,
    /// A write or a sync failed earlier, so the session is over; [`Error::system`] has the cause.
    Broken = -29,
    /// The bytes or the length are outside the file's range.
    Einval = -30,
    /// Memory of the file is open already in another way, or the call names the file twice.
    Overlap = -33,
    /// The volume has no such file.
    NoFile = -34,
    /// Memory of the file is open; a backup is being made; a thread stored during a commit, with
    /// [`kernel_tracking`](crate::Options::kernel_tracking); this thread holds a [`Group`](crate::Group); the session
    /// has made 2^32 - 1 commits; or no number is left for another opening.
    Busy = -35,
    /// A sync failed, and the volume's suspect flag couldn't be made; [`Error::system`] has the cause of the sync's
    /// failure.
    Unmarked = -39,
    /// A crash or a failed sync left work for a writer: open the volume for writing once.
    NeedsOpening = -40,
    /// The session only reads.
    ReadOnly = -41,
    /// There can't be memory at this address.
    Address = -42,
    /// The system can't track stores to plain memory in the requested way.
    Tracking = -44,
    /// A [`transaction`](crate::Volume::transaction) is open, or its rollback failed: nothing else can be committed
    /// before a rollback.
    Transaction = -45,
}

impl Code {
    /// Whether the system has a part in it, so that `errno` says how.
    fn is_of_the_system(self) -> bool {
        matches!(self, Code::System | Code::NoSpace | Code::Device | Code::Broken | Code::Unmarked)
    }
}

/// A call that was refused.
#[derive(Debug)]
pub struct Error {
    code: Code,
    message: Option<String>,
    system: Option<io::Error>,
    done: usize,
}

impl Error {
    pub(crate) fn new(code: Code) -> Error {
        Error { code, message: None, system: None, done: 0 }
    }

    pub(crate) fn with_message(code: Code, message: String) -> Error {
        Error { message: Some(message), ..Error::new(code) }
    }

    /// With the line that the library wrote about it, up to a null byte, if there is one.
    pub(crate) fn saying(self, line: &[u8]) -> Error {
        let line = line.split(|byte| *byte == 0).next().unwrap_or_default();
        if line.is_empty() {
            return self;
        }
        Error { message: Some(String::from_utf8_lossy(line).into_owned()), ..self }
    }

    pub(crate) fn after(self, done: usize) -> Error {
        Error { done, ..self }
    }

    /// Why it was refused.
    pub fn code(&self) -> Code {
        self.code
    }

    /// The system's error, for [`Code::System`], [`Code::NoSpace`], [`Code::Device`], [`Code::Broken`] and
    /// [`Code::Unmarked`]. It distinguishes a full disk, a broken disk and a lack of memory.
    pub fn system(&self) -> Option<&io::Error> {
        self.system.as_ref()
    }

    /// The number of bytes that a read or a write had done before it failed; 0 for all other calls.
    pub fn done(&self) -> usize {
        self.done
    }
}

impl fmt::Display for Error {
    fn fmt(&self, formatter: &mut fmt::Formatter<'_>) -> fmt::Result {
        if let Some(message) = &self.message {
            return formatter.write_str(message);
        }
        // Safety: it answers a string that is never freed, whatever the number.
        let words = unsafe { CStr::from_ptr(ffi::famsync_strerror(self.code.number())) };
        formatter.write_str(&words.to_string_lossy())?;
        match &self.system {
            Some(error) => write!(formatter, ": {error}"),
            None => Ok(()),
        }
    }
}

impl std::error::Error for Error {}

/// What a call of the library answered; to be asked before anything else is called, which may set `errno`.
pub(crate) fn check(answer: c_int) -> Result<(), Error> {
    if answer == ffi::FAMSYNC_OK {
        return Ok(());
    }
    let system = io::Error::last_os_error();
    let code = Code::from(answer);
    // Safety: it answers a string that stays as it is until this thread's next failed call.
    let text = unsafe { CStr::from_ptr(ffi::famsync_error(ptr::null())) };
    Err(Error { system: code.is_of_the_system().then_some(system), ..Error::new(code) }.saying(text.to_bytes()))
}
