//! The bytes of a file: mapped where the system can, else read. The one unsafe place of the program.
#![allow(unsafe_code)]

use std::ffi::{c_int, c_void};
use std::fs::File;
use std::io::{self, Read};
use std::ops::Deref;
use std::os::fd::AsRawFd;
use std::path::Path;

/// One byte more than the longest file that the reader takes: enough for its refusal.
const MOST: u64 = 2_147_483_648;

pub enum Bytes {
    Mapped(Mapped),
    Read(Vec<u8>),
}

impl Deref for Bytes {
    type Target = [u8];

    fn deref(&self) -> &[u8] {
        match self {
            // SAFETY: see `Mapped::new`; nothing is unmapped while the slice is lent.
            Self::Mapped(Mapped { at, len }) => unsafe { std::slice::from_raw_parts(*at, *len) },
            Self::Read(bytes) => bytes,
        }
    }
}

pub fn of_file(path: &Path) -> io::Result<Bytes> {
    let file = File::open(path)?;
    let metadata = file.metadata()?;
    if metadata.is_dir() {
        return Err(io::Error::new(io::ErrorKind::InvalidInput, "is a directory"));
    }
    if metadata.is_file() && metadata.len() > 0 {
        if let Some(mapped) = Mapped::new(&file, metadata.len().min(MOST) as usize) {
            return Ok(Bytes::Mapped(mapped));
        }
    }
    all(file)
}

pub fn of_input() -> io::Result<Bytes> {
    all(io::stdin().lock())
}

fn all(from: impl Read) -> io::Result<Bytes> {
    let mut bytes = Vec::new();
    from.take(MOST).read_to_end(&mut bytes)?;
    Ok(Bytes::Read(bytes))
}

extern "C" {
    fn mmap(at: *mut c_void, len: usize, protection: c_int, flags: c_int, file: c_int, offset: i64) -> *mut c_void;
    fn munmap(at: *mut c_void, len: usize) -> c_int;
}

/// The first bytes of a file, mapped.
pub struct Mapped {
    at: *const u8,
    len: usize,
}

impl Mapped {
    fn new(file: &File, len: usize) -> Option<Self> {
        const READ: c_int = 1;
        const PRIVATE: c_int = 2;
        // SAFETY: the system chooses where; what it gives are `len` bytes that may be read, that nothing else of this program has, and that are
        // unmapped by `drop` alone. That no other program changes the file in the meantime is asked of the user, as with every program that maps files.
        let at = unsafe { mmap(std::ptr::null_mut(), len, READ, PRIVATE, file.as_raw_fd(), 0) };
        (at as isize != -1).then_some(Self { at: at.cast(), len })
    }
}

impl Drop for Mapped {
    fn drop(&mut self) {
        // SAFETY: what was mapped, and is lent no more. The result tells of wrong arguments alone.
        unsafe { munmap(self.at.cast_mut().cast(), self.len) };
    }
}
