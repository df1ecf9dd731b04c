//! The files that the tests are about, and a folder for those that they make.

use std::env;
use std::fs;
use std::path::{Path, PathBuf};
use std::process;

pub struct Files {
    program: PathBuf, // crates/framewitness, with its files and what it must print for them
    room: PathBuf,
}

impl Files {
    pub fn of(top: &Path) -> Files {
        let program = top.join("crates/framewitness");
        let program = fs::canonicalize(&program).unwrap_or(program);
        let room = env::temp_dir().join(format!("framewitness-tests-{}", process::id()));
        fs::create_dir_all(&room).expect("a folder for the tests' files");
        Files { program, room }
    }

    pub fn path(&self, name: &str) -> PathBuf {
        self.program.join("data").join(name)
    }

    pub fn bytes(&self, name: &str) -> Vec<u8> {
        fs::read(self.path(name)).expect(name)
    }

    pub fn text(&self, name: &str) -> String {
        fs::read_to_string(self.program.join(name)).expect(name)
    }

    /// Each file, and the line that the program prints for it.
    pub fn lines(&self) -> Vec<(String, String)> {
        let text = self.text("stdout");
        let lines = text.lines().map(|line| line.split_once(": ").unwrap());
        lines.map(|(a, b)| (a.into(), b.into())).collect()
    }

    /// Each list of samples that is stored, by its file.
    pub fn lists(&self) -> Vec<(String, String)> {
        let folder = fs::read_dir(self.program.join("listing")).expect("listing");
        let names = folder.map(|entry| entry.unwrap().path());
        let names = names.map(|path| path.file_stem().unwrap().to_str().unwrap().to_string());
        names
            .map(|name| {
                (
                    format!("{name}.mp4"),
                    self.text(&format!("listing/{name}.txt")),
                )
            })
            .collect()
    }

    /// A new file of this name.
    pub fn made(&self, name: &str, bytes: &[u8]) -> PathBuf {
        let path = self.room.join(name);
        fs::write(&path, bytes).expect(name);
        path
    }

    /// A path where nothing is yet.
    pub fn free(&self, name: &str) -> PathBuf {
        self.room.join(name)
    }

    /// Calls `f` where recording.mp4 is a copy of this file.
    pub fn within(&self, name: &str, f: impl FnOnce()) {
        self.made("recording.mp4", &self.bytes(name));
        env::set_current_dir(&self.room).unwrap();
        f();
    }
}

impl Drop for Files {
    fn drop(&mut self) {
        let _ = fs::remove_dir_all(&self.room); // of the system's own folder for such files
    }
}
