//! What is told of one file, and what that means for the exit status.
use crate::line;
use crate::Status;
use framewitness::{Recording, Refusal, Track, Verdict};
use std::ffi::OsStr;
use std::fmt::Write;
use std::io;
use std::os::unix::ffi::OsStrExt;

#[derive(Clone, Copy)]
pub enum Task {
    Audit,
    List,
    Summary,
}

pub struct Told {
    pub text: Vec<u8>,
    pub status: Status,
}

/// No path has more bytes.
const LONGEST_PATH: usize = 4096;

pub fn of(task: Task, name: &OsStr) -> Told {
    if name.len() > LONGEST_PATH {
        let start = &name.as_bytes()[..LONGEST_PATH];
        return Told {
            text: line::too_long(start),
            status: Status::NoVerdict,
        };
    }
    let recording = match Recording::open(name) {
        Ok(recording) => recording,
        Err(error) => return not_read(name, &unopened(&error)),
    };
    let verdict = recording.audit();
    let told = match task {
        Task::Audit => judged(name, &verdict),
        Task::List => rows(name, &recording, &verdict, list),
        Task::Summary => rows(name, &recording, &verdict, summary),
    };
    // of bytes that are not those of one moment nothing is said
    match recording.is_unchanged() {
        Ok(true) => told,
        Ok(false) => not_read(name, "it was changed while it was read"),
        Err(_) => not_read(name, "its bytes could not all be read"),
    }
}

fn not_read(name: &OsStr, why: &str) -> Told {
    Told {
        text: line::unread(name, why),
        status: Status::NoVerdict,
    }
}

/// The library's own words, where it is no file; what the system says is in its language, and is left out.
fn unopened(error: &io::Error) -> String {
    match error.raw_os_error() {
        None => error.to_string(),
        Some(_) => "it can not be opened".to_string(),
    }
}

fn judged(name: &OsStr, verdict: &Verdict) -> Told {
    Told {
        text: line::verdict(name, verdict),
        status: status(verdict),
    }
}

fn status(verdict: &Verdict) -> Status {
    if verdict.is_clean() {
        Status::Clean
    } else {
        Status::NotClean
    }
}

/// Rows about the tracks, with the status of the verdict; where they are refused, the line that says so.
fn rows(
    name: &OsStr,
    file: &Recording,
    verdict: &Verdict,
    made: fn(&[Track]) -> Result<String, Refusal>,
) -> Told {
    match file.tracks().and_then(|tracks| made(&tracks)) {
        Ok(text) => Told {
            text: text.into_bytes(),
            status: status(verdict),
        },
        Err(refusal) => judged(name, &Verdict::Refused(refusal)),
    }
}

fn list(tracks: &[Track]) -> Result<String, Refusal> {
    let mut text = String::from("track\tnumber\toffset\tsize\ttime\tduration\tcomposition\tsync\n");
    for track in tracks {
        for s in track.samples()? {
            let _ = writeln!(
                text,
                "{}\t{}\t{}\t{}\t{}\t{}\t{}\t{}",
                track.number(),
                s.number,
                s.offset,
                s.size,
                s.time,
                s.duration,
                s.composition,
                u8::from(s.is_sync)
            );
        }
    }
    Ok(text)
}

fn summary(tracks: &[Track]) -> Result<String, Refusal> {
    let mut text = String::from(
        "track\tkind\tentry\tlanguage\ttimescale\tduration\tmicroseconds\tsamples\tbytes\tframes\twidth\theight\n",
    );
    for track in tracks {
        let s = track.summary()?;
        let entry = s
            .entry
            .map_or("-".to_string(), |letters| letters.to_string());
        let language: String = s
            .language
            .iter()
            .map(|&c| if c.is_ascii_graphic() { c } else { '?' })
            .collect();
        let _ = writeln!(
            text,
            "{}\t{}\t{entry}\t{language}\t{}\t{}\t{}\t{}\t{}\t{}\t{}\t{}",
            s.number,
            s.handler,
            s.timescale,
            s.duration,
            s.micros,
            s.samples,
            s.bytes,
            s.frame_rate,
            s.width,
            s.height
        );
    }
    Ok(text)
}
