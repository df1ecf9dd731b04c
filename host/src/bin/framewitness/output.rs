//! Standard output, of which each write is known to have been made. `std::io::stdout` takes one that is closed for one that
//! is written.
use crate::{complain, Status};
use std::fs::File;
use std::io::{self, Write};
use std::os::fd::AsFd;

pub struct Output(File);

impl Output {
    /// Before any file is opened, which else might get a closed descriptor's number.
    pub fn open() -> io::Result<Output> {
        Ok(Output(File::from(
            io::stdout().as_fd().try_clone_to_owned()?,
        )))
    }

    pub fn write(&mut self, text: &[u8]) -> io::Result<()> {
        self.0.write_all(text)
    }
}

/// A line that is not written is as bad as a file that is not read.
pub fn unwritten() -> Status {
    complain("framewitness: a line could not be written\n");
    Status::NoVerdict
}
