// Volumes for tests, made here byte by byte as docs/FORMATS.md has them, so that no other program is needed.

/// A volume in a folder of its own, which goes with it.
pub struct Made {
    folder: std::path::PathBuf,
}

#[allow(dead_code)]
impl Made {
    /// The path of the volume.
    pub fn path(&self) -> std::path::PathBuf {
        self.folder.join("v.img")
    }

    /// The path of another file in the folder.
    pub fn beside(&self, name: &str) -> std::path::PathBuf {
        self.folder.join(name)
    }
}

impl Drop for Made {
    fn drop(&mut self) {
        let _ = std::fs::remove_dir_all(&self.folder);
    }
}

fn put_number(bytes: &mut [u8], number: u64) {
    let all = number.to_be_bytes();
    bytes.copy_from_slice(&all[8 - bytes.len()..]);
}

/// The key of layout 6.
#[allow(dead_code)]
pub const KEY: u64 = 0x0123456789abcdef;

/// The layouts of volumes.
#[allow(dead_code)]
pub const LAYOUTS: std::ops::RangeInclusive<u8> = 5..=6;

/// How many blocks a log has in which a commit has at most so many records.
pub fn log_blocks(records: u64) -> u64 {
    4.max((32 + 4 * records + 4095) / 4096 + records + 1)
}

/// Makes a volume of a layout with these files: `NAME=LENGTH` or `NAME=LENGTH/CAPACITY`, with blanks between them. A
/// commit has at most one page less than so many records, as one is for the lengths.
pub fn make_volume(layout: u8, records: u64, files: &str) -> Made {
    static COUNT: std::sync::atomic::AtomicU32 = std::sync::atomic::AtomicU32::new(0);
    let count = COUNT.fetch_add(1, std::sync::atomic::Ordering::Relaxed);
    let folder = std::env::temp_dir().join(format!("famsync-rust-{}-{count}", std::process::id()));
    let lengths_at = 4 + log_blocks(records);
    let mut next = lengths_at + 1;
    let behind = log_blocks(records) + 1;
    let (mut head, mut lengths) = (vec![0; 4096], vec![0; 4096]);
    for (number, file) in files.split_whitespace().enumerate() {
        let (name, length) = file.split_once('=').unwrap();
        let (length, capacity) = length.split_once('/').unwrap_or((length, length));
        let (length, capacity): (u64, u64) = (length.parse().unwrap(), capacity.parse().unwrap());
        let pages = (capacity + 4095) / 4096;
        let row = &mut head[32 + 48 * number..80 + 48 * number];
        row[..name.len()].copy_from_slice(name.as_bytes());
        put_number(&mut row[32..40], capacity);
        put_number(&mut row[40..44], next - behind);
        put_number(&mut row[44..48], pages);
        put_number(&mut lengths[8 * number..8 * number + 8], length);
        next += pages;
    }
    head[..8].copy_from_slice(format!("FAMSYNC{layout}").as_bytes());
    put_number(&mut head[8..12], files.split_whitespace().count() as u64);
    put_number(&mut head[12..16], log_blocks(records));
    put_number(&mut head[16..20], next);
    put_number(&mut head[20..24], 4);
    put_number(&mut head[24..32], if layout == 6 { KEY } else { 0 });
    std::fs::create_dir(&folder).unwrap();
    let made = Made { folder };
    std::fs::write(made.path(), head).unwrap();
    let file = std::fs::OpenOptions::new().write(true).open(made.path()).unwrap();
    file.set_len(next * 4096).unwrap();
    std::os::unix::fs::FileExt::write_all_at(&file, &lengths, lengths_at * 4096).unwrap();
    let start = [1u64.to_be_bytes(), 1u64.to_be_bytes()].concat();
    std::os::unix::fs::FileExt::write_all_at(&file, &start, 2 * 4096).unwrap();
    made
}
