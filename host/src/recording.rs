use crate::exports;
use crate::map::Map;
use crate::refusal::Refusal;
use crate::track::Track;
use crate::verdict::Verdict;
use std::fmt;
use std::io;
use std::path::Path;

/// A file's bytes, mapped or lent, and the questions that the library answers about them.
pub struct Recording<'a> {
    source: Source<'a>,
}

enum Source<'a> {
    Mapped(Map),
    Lent(&'a [u8]),
}

impl Recording<'static> {
    /// Opens a file and maps it, read-only, whatever its size; the library refuses one of more than 1,073,741,824 bytes.
    ///
    /// A directory, a pipe and a device are refused before they are opened, by an error of the kind `InvalidInput` whose
    /// text says so.
    ///
    /// # While the file is mapped
    ///
    /// Nobody may change it, which the system does not prevent. If somebody writes to it, old and new bytes may be
    /// mixed, and a verdict says nothing. If somebody cuts it short, the system stops the process by the signal SIGBUS
    /// where it reads behind the new end. [`Recording::is_unchanged`] tells a change afterwards. Whoever can not rule
    /// one out reads the bytes and lends them: [`Recording::lend`].
    pub fn open(path: impl AsRef<Path>) -> io::Result<Recording<'static>> {
        let map = Map::open(path.as_ref())?;
        Ok(Recording {
            source: Source::Mapped(map),
        })
    }
}

impl<'a> Recording<'a> {
    /// A recording of bytes that lie in memory.
    pub fn lend(bytes: &'a [u8]) -> Recording<'a> {
        Recording {
            source: Source::Lent(bytes),
        }
    }

    /// The bytes of the file.
    pub fn bytes(&self) -> &[u8] {
        match &self.source {
            Source::Mapped(map) => map.bytes(),
            Source::Lent(bytes) => bytes,
        }
    }

    /// Audits the file.
    pub fn audit(&self) -> Verdict {
        let mut words = [0; 4];
        let answer = exports::audit(self.bytes(), &mut words);
        Verdict::of(answer, words)
    }

    /// The tracks, in the order of the file's moov box. The file is audited first, at each call; where that refuses it,
    /// this does so too, and a finding does not hinder it.
    pub fn tracks(&self) -> Result<Vec<Track<'_>>, Refusal> {
        if let Verdict::Refused(refusal) = self.audit() {
            return Err(refusal);
        }
        let mut tracks = Vec::new();
        while let Some(track) = Track::at(self.bytes(), tracks.len())? {
            tracks.push(track);
        }
        Ok(tracks)
    }

    /// The track of this number, if there is one; refused as [`Recording::tracks`] is.
    pub fn track(&self, number: u32) -> Result<Option<Track<'_>>, Refusal> {
        let tracks = self.tracks()?;
        Ok(tracks.into_iter().find(|track| track.number() == number))
    }

    /// Whether a mapped file has the size and the time of modification that it had when it was opened; bytes that are
    /// lent do not change. A change that leaves both as they were is not noticed: one whose maker sets the time back, or
    /// that follows another one within the file system's grain of time.
    pub fn is_unchanged(&self) -> io::Result<bool> {
        match &self.source {
            Source::Mapped(map) => map.is_unchanged(),
            Source::Lent(_) => Ok(true),
        }
    }
}

impl fmt::Debug for Recording<'_> {
    fn fmt(&self, f: &mut fmt::Formatter<'_>) -> fmt::Result {
        let source = match self.source {
            Source::Mapped(_) => "mapped",
            Source::Lent(_) => "lent",
        };
        write!(f, "Recording({} bytes, {source})", self.bytes().len())
    }
}
