use crate::error::{check, Code, Error};
use crate::ffi;
use crate::options::MESSAGE;
use std::ffi::{c_int, c_uint, CString};
use std::mem;
use std::os::unix::ffi::OsStrExt;
use std::path::Path;

/// A volume that is to be made: its files, all zeros, and how large commits may be.
///
/// ```
/// # fn main() -> Result<(), famsync::Error> {
/// # let path = &std::env::temp_dir().join(format!("plan-{}.vol", std::process::id()));
/// famsync::Plan::new().file("bank", 8192).growing("log", 0, 1 << 40).make(path)?;
/// let volume = famsync::Volume::open(path)?;
/// assert_eq!((volume.frames(), volume.files().count()), (16366, 2));
/// # std::fs::remove_file(path).unwrap();
/// # Ok(())
/// # }
/// ```
#[derive(Clone, Debug)]
pub struct Plan {
    layout: u32,
    log: Option<u32>,
    key: u64,
    files: Vec<(String, u64, u64)>,
    preallocate: bool,
}

impl Default for Plan {
    fn default() -> Plan {
        Plan { layout: 5, log: None, key: 0, files: Vec::new(), preallocate: false }
    }
}

impl Plan {
    /// A volume of layout 5, with a log of 64 MB and no files yet.
    pub fn new() -> Plan {
        Plan::default()
    }

    /// The layout, 5 or 6.
    pub fn layout(&mut self, layout: u32) -> &mut Plan {
        self.layout = layout;
        self
    }

    /// The blocks of the log, 4 to 2^24; 16,384 by default. A commit has to fit into it.
    pub fn log(&mut self, blocks: u32) -> &mut Plan {
        self.log = Some(blocks);
        self
    }

    /// The key of the digests, in layout 6. By default, and with 0, it is a random one.
    pub fn key(&mut self, key: u64) -> &mut Plan {
        self.key = key;
        self
    }

    /// One more file, of this length, which it keeps.
    pub fn file(&mut self, name: impl Into<String>, length: u64) -> &mut Plan {
        self.growing(name, length, length)
    }

    /// One more file, which may grow up to a capacity.
    pub fn growing(&mut self, name: impl Into<String>, length: u64, capacity: u64) -> &mut Plan {
        self.files.push((name.into(), length, capacity));
        self
    }

    /// Whether the disk's blocks are taken now; else before they are written.
    pub fn preallocate(&mut self, preallocate: bool) -> &mut Plan {
        self.preallocate = preallocate;
        self
    }

    /// Makes the volume in a new file. [`Code::System`], with `AlreadyExists`, if there is one of this name;
    /// [`Code::Argument`] if no volume is like that. The error says in words what is wrong.
    pub fn make(&self, path: impl AsRef<Path>) -> Result<(), Error> {
        if self.layout == 0 || self.log == Some(0) {
            return Err(Error::with_message(Code::Argument, "a volume has a layout and a log".to_string()));
        }
        let text = |bytes: &[u8], what: &str| {
            CString::new(bytes).map_err(|_| Error::with_message(Code::Argument, format!("{what} has no null byte")))
        };
        let path = text(path.as_ref().as_os_str().as_bytes(), "a path")?;
        let name = |name: &String| text(name.as_bytes(), "a file's name");
        let names = self.files.iter().map(|(named, ..)| name(named)).collect::<Result<Vec<_>, _>>()?;
        let files: Vec<_> = names
            .iter()
            .zip(&self.files)
            .map(|(name, &(_, length, capacity))| ffi::FamsyncNewFile { name: name.as_ptr(), length, capacity })
            .collect();
        let mut message = vec![0u8; MESSAGE];
        let plan = ffi::FamsyncPlan {
            size: mem::size_of::<ffi::FamsyncPlan>(),
            layout: c_uint::from(self.layout),
            files: c_uint::try_from(files.len()).unwrap_or(c_uint::MAX),
            file: files.as_ptr(),
            preallocate: c_int::from(self.preallocate),
            message: message.as_mut_ptr().cast(),
            message_size: message.len(),
            log: c_uint::from(self.log.unwrap_or(0)),
            key: self.key,
        };
        // Safety: the path and the names end with null bytes, and the plan has the files and the room that it says.
        check(unsafe { ffi::famsync_format(path.as_ptr(), &plan) }).map_err(|error| error.saying(&message))
    }
}
