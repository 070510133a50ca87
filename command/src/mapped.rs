//! The bytes of a file: mapped where it is a regular file, so that a capture larger than the memory can be read; else read.

use crate::endings;
use std::ffi::{c_int, c_void, OsStr};
use std::fs::File;
use std::io::{self, Read};
use std::ops::Deref;
use std::os::fd::AsRawFd;
use std::{ptr, slice};

extern "C" {
    fn mmap(address: *mut c_void, length: usize, protection: c_int, flags: c_int, file: c_int, offset: i64) -> *mut c_void;
    fn munmap(address: *mut c_void, length: usize) -> c_int;
    fn madvise(address: *mut c_void, length: usize, advice: c_int) -> c_int;
}

/// x86-64 Linux's numbers, for which alone the archive is made.
const PROT_READ: c_int = 1;
const MAP_PRIVATE: c_int = 2;
const MADV_SEQUENTIAL: c_int = 2;

/// A file's bytes.
pub enum Bytes {
    Mapped(Map),
    Read(Vec<u8>),
}

impl Deref for Bytes {
    type Target = [u8];

    fn deref(&self) -> &[u8] {
        match self {
            Bytes::Mapped(map) => map,
            Bytes::Read(bytes) => bytes,
        }
    }
}

/// The bytes of the file of this name; of standard input for `-`.
pub fn read(name: &OsStr) -> io::Result<Bytes> {
    let mut bytes = Vec::new();
    if name == "-" {
        io::stdin().lock().read_to_end(&mut bytes)?;
        return Ok(Bytes::Read(bytes));
    }
    let mut file = File::open(name)?;
    let told = file.metadata()?;
    // A file of no bytes cannot be mapped; some of the system's own say 0 and have bytes. Where mapping is not at hand, reading is.
    if told.is_file() && told.len() > 0 {
        if let Some(map) = Map::of(&file, told.len() as usize) {
            return Ok(Bytes::Mapped(map));
        }
    }
    file.read_to_end(&mut bytes)?;
    Ok(Bytes::Read(bytes))
}

/// A mapped file. Somebody else who cuts the file meanwhile makes the bytes behind its new end unreadable: SIGBUS, which ends the program
/// with a sentence and exit code 3 (endings.rs). One who overwrites it changes what we count, as he would with a file that is being read.
pub struct Map {
    start: *mut c_void,
    length: usize,
}

impl Map {
    fn of(file: &File, length: usize) -> Option<Map> {
        endings::watch_mapped();
        // SAFETY: a new mapping where the system wants it, of a file that is open.
        let start = unsafe { mmap(ptr::null_mut(), length, PROT_READ, MAP_PRIVATE, file.as_raw_fd(), 0) };
        if start as isize == -1 {
            return None;
        }
        // SAFETY: the mapping just made. The advice may be refused: it changes no byte.
        unsafe { madvise(start, length, MADV_SEQUENTIAL) };
        Some(Map { start, length })
    }
}

impl Deref for Map {
    type Target = [u8];

    fn deref(&self) -> &[u8] {
        // SAFETY: the mapping has so many bytes, is readable, and lives as long as this.
        unsafe { slice::from_raw_parts(self.start.cast(), self.length) }
    }
}

impl Drop for Map {
    fn drop(&mut self) {
        // SAFETY: the mapping that was made, and nobody borrows it any more.
        unsafe { munmap(self.start, self.length) };
    }
}
