//! A file's bytes, mapped and not copied.

use std::fs::{self, File, Metadata, OpenOptions};
use std::io;
use std::os::unix::fs::OpenOptionsExt;
use std::os::unix::io::AsRawFd;
use std::path::Path;
use std::ptr::{self, NonNull};
use std::slice;
use std::time::SystemTime;

extern "C" {
    fn mmap(at: *mut u8, length: usize, prot: i32, flags: i32, fd: i32, offset: i64) -> *mut u8;
    fn munmap(at: *mut u8, length: usize) -> i32;
}
// Linux, x86-64
const PROT_READ: i32 = 1;
const MAP_PRIVATE: i32 = 2;
const MAP_FAILED: isize = -1;
const O_NONBLOCK: i32 = 0o4000;

pub struct Map {
    at: NonNull<u8>,
    length: usize, // 0: nothing is mapped
    file: File,
    modified: SystemTime,
}

// SAFETY: the bytes are only ever read, and no thread has a part in them that others have not.
unsafe impl Send for Map {}
unsafe impl Sync for Map {}

impl Map {
    pub fn open(path: &Path) -> io::Result<Map> {
        must_be_file(&fs::metadata(path)?)?; // before it is opened, since opening a device may do something to it
        let file = OpenOptions::new()
            .read(true)
            .custom_flags(O_NONBLOCK) // were it a pipe by now, opening it would wait for a writer
            .open(path)?;
        let metadata = file.metadata()?;
        must_be_file(&metadata)?;
        let length = metadata.len() as usize; // both have 64 bits
        let modified = metadata.modified()?;
        let at = match length {
            0 => NonNull::dangling(), // the system maps no bytes at all
            _ => map(&file, length)?,
        };
        Ok(Map {
            at,
            length,
            file,
            modified,
        })
    }

    pub fn bytes(&self) -> &[u8] {
        // SAFETY: so many bytes are mapped there until this is dropped, and the slice does not outlive it. That nobody
        // changes the file meanwhile is asked of the caller: see `Recording::open`.
        unsafe { slice::from_raw_parts(self.at.as_ptr(), self.length) }
    }

    pub fn is_unchanged(&self) -> io::Result<bool> {
        let now = self.file.metadata()?;
        Ok(now.len() == self.length as u64 && now.modified()? == self.modified)
    }
}

impl Drop for Map {
    fn drop(&mut self) {
        if self.length > 0 {
            // SAFETY: `map` made this map, of this length, and nobody has a part of it any more.
            unsafe { munmap(self.at.as_ptr(), self.length) };
        }
    }
}

fn map(file: &File, length: usize) -> io::Result<NonNull<u8>> {
    // SAFETY: the system chooses a place where nothing of this program is.
    let at = unsafe {
        mmap(
            ptr::null_mut(),
            length,
            PROT_READ,
            MAP_PRIVATE,
            file.as_raw_fd(),
            0,
        )
    };
    match NonNull::new(at) {
        Some(at) if at.as_ptr() as isize != MAP_FAILED => Ok(at),
        _ => Err(io::Error::last_os_error()),
    }
}

fn must_be_file(metadata: &Metadata) -> io::Result<()> {
    if metadata.is_file() {
        return Ok(());
    }
    let why = match metadata.is_dir() {
        true => "it is a directory",
        false => "it is a pipe or a device and no file",
    };
    Err(io::Error::new(io::ErrorKind::InvalidInput, why))
}
