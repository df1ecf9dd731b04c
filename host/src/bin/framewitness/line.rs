//! A file's line, as the proved program has it (crates/framewitness/src/line.rt).
use framewitness::{Finding, Refusal, Verdict};
use std::ffi::OsStr;
use std::os::unix::ffi::OsStrExt;

/// A name is bytes, and is written as it was given.
fn named(name: &OsStr, words: &str) -> Vec<u8> {
    [name.as_bytes(), b": ", words.as_bytes(), b"\n"].concat()
}

pub fn unread(name: &OsStr, why: &str) -> Vec<u8> {
    named(name, &format!("not read ({why})"))
}

/// Of a name that no path can have, its start.
pub fn too_long(start: &[u8]) -> Vec<u8> {
    [start, b"...: not read (its name is too long)\n"].concat()
}

pub fn verdict(name: &OsStr, verdict: &Verdict) -> Vec<u8> {
    let words = match verdict {
        Verdict::Clean {
            tracks,
            samples,
            media,
        } => format!("clean tracks={tracks} samples={samples} media={media}"),
        Verdict::Found(finding) => of_finding(finding),
        Verdict::Refused(refusal) => of_refusal(refusal),
    };
    named(name, &words)
}

fn of_finding(f: &Finding) -> String {
    format!(
        "F{} track={} sample={} position={} gap={} ({})",
        f.number(),
        f.track(),
        f.sample(),
        f.position(),
        f.gap(),
        f.meaning()
    )
}

fn of_refusal(q: &Refusal) -> String {
    // what is missing has a name, what is wrong a position
    let detail = match q {
        Refusal::Missing { letters } => letters.to_string(),
        _ => q.detail().to_string(),
    };
    format!("refused {} detail={detail} ({})", q.number(), q.meaning())
}
