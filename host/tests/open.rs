//! What can be opened, and what is told of a file that changes.

use crate::files::Files;
use framewitness::{FourLetters, Recording, Refusal, Verdict};
use std::ffi::CString;
use std::fs::File;
use std::io::ErrorKind;
use std::os::raw::c_char;
use std::os::unix::ffi::OsStrExt;
use std::os::unix::io::AsRawFd;
use std::path::{Path, PathBuf};

extern "C" {
    fn mkfifo(path: *const c_char, mode: u32) -> i32;
    fn futimens(fd: i32, times: *const [[i64; 2]; 2]) -> i32;
}

pub fn maps_the_bytes(files: &Files) {
    for name in ["clean_case2.mp4", "ff_prog_av.mp4", "r5_moov.mp4"] {
        let bytes = files.bytes(name);
        assert_eq!(Recording::open(files.path(name)).unwrap().bytes(), bytes);
        assert_eq!(Recording::lend(&bytes).bytes(), bytes);
    }
}

pub fn an_empty_file(files: &Files) {
    let empty = Recording::open(files.made("empty.mp4", b"")).unwrap();
    assert_eq!(empty.bytes(), b"");
    let letters = FourLetters(*b"ftyp");
    assert_eq!(
        empty.audit(),
        Verdict::Refused(Refusal::Missing { letters })
    );
    assert_eq!(empty.audit(), Recording::lend(b"").audit());
    assert!(empty.is_unchanged().unwrap());
}

pub fn no_file(files: &Files) {
    let pipe = files.free("pipe");
    let name = CString::new(pipe.as_os_str().as_bytes()).unwrap();
    // SAFETY: the name ends with a 0.
    assert_eq!(unsafe { mkfifo(name.as_ptr(), 0o600) }, 0);

    let refused = |path: &Path, words: &str| {
        let error = Recording::open(path).unwrap_err();
        assert_eq!(error.kind(), ErrorKind::InvalidInput);
        assert_eq!(error.to_string(), words);
    };
    refused(&files.free(""), "it is a directory");
    refused(&pipe, "it is a pipe or a device and no file"); // and nobody waits for a writer
    refused("/dev/null".as_ref(), "it is a pipe or a device and no file");

    let error = Recording::open(files.free("nothing")).unwrap_err();
    assert_eq!(error.kind(), ErrorKind::NotFound);
}

/// One byte more than the library reads; it takes no room on the disk.
pub fn a_file_past_the_limit(files: &Files) {
    let path = files.free("large.mp4");
    File::create(&path).unwrap().set_len((1 << 30) + 1).unwrap();
    let large = Recording::open(&path).unwrap();
    assert_eq!(large.bytes().len(), (1 << 30) + 1);
    let refusal = Refusal::OverLimit { position: 0 };
    assert_eq!(large.audit(), Verdict::Refused(refusal));
    assert_eq!(large.tracks().unwrap_err(), refusal);
}

/// Of the size and the time of modification, each alone.
pub fn tells_a_change(files: &Files) {
    let path = written_at(files, b"some", 1);
    let recording = Recording::open(&path).unwrap();
    assert!(recording.is_unchanged().unwrap());
    written_at(files, b"more", 2);
    assert!(!recording.is_unchanged().unwrap());
    written_at(files, b"some more", 1);
    assert!(!recording.is_unchanged().unwrap());
    written_at(files, b"more", 1); // this is what can not be told
    assert!(recording.is_unchanged().unwrap());

    assert!(Recording::lend(b"some").is_unchanged().unwrap());
}

// A file whose time of modification is so many seconds after the first there is.
fn written_at(files: &Files, bytes: &[u8], seconds: i64) -> PathBuf {
    let path = files.made("changing.mp4", bytes);
    let file = File::open(&path).unwrap();
    // SAFETY: the file is open, and the two times are two words each.
    let done = unsafe { futimens(file.as_raw_fd(), &[[seconds, 0], [seconds, 0]]) };
    assert_eq!(done, 0);
    path
}
