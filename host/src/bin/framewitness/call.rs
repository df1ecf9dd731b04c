//! What the arguments ask for. An option is one only as the first of them, so that any later argument is a file.
use std::ffi::OsString;
use std::os::unix::ffi::OsStrExt;

/// The most files that are audited at a time.
const MOST_JOBS: usize = 256;

pub enum Call {
    Help,
    Version,
    List(OsString),
    Summary(OsString),
    Files { jobs: usize, names: Vec<OsString> },
}

/// What is wrong with a call.
pub enum Misuse {
    NoFile,
    NotOneList,
    NotOneSummary,
    NoJobs,
    UnknownOption,
}

impl Misuse {
    pub fn words(&self) -> &'static str {
        match self {
            Misuse::NoFile => "no file is named",
            Misuse::NotOneList => "--list takes one file",
            Misuse::NotOneSummary => "--summary takes one file",
            Misuse::NoJobs => "--jobs takes a number from 1 to 256",
            Misuse::UnknownOption => "the first argument is no option that is known",
        }
    }
}

impl Call {
    pub fn of(arguments: impl Iterator<Item = OsString>) -> Result<Call, Misuse> {
        let mut rest = arguments;
        let first = rest.next().ok_or(Misuse::NoFile)?;
        match first.as_bytes() {
            b"--help" => Ok(Call::Help),
            b"--version" => Ok(Call::Version),
            b"--list" => Ok(Call::List(one(rest).ok_or(Misuse::NotOneList)?)),
            b"--summary" => Ok(Call::Summary(one(rest).ok_or(Misuse::NotOneSummary)?)),
            b"--jobs" => {
                let jobs = rest.next().and_then(jobs).ok_or(Misuse::NoJobs)?;
                files(jobs, rest)
            }
            b"--" => files(processors(), rest),
            [b'-', ..] => Err(Misuse::UnknownOption),
            _ => files(processors(), std::iter::once(first).chain(rest)),
        }
    }
}

fn one(mut rest: impl Iterator<Item = OsString>) -> Option<OsString> {
    let name = rest.next()?;
    rest.next().is_none().then_some(name)
}

fn files(jobs: usize, names: impl Iterator<Item = OsString>) -> Result<Call, Misuse> {
    let names: Vec<OsString> = names.collect();
    if names.is_empty() {
        return Err(Misuse::NoFile);
    }
    Ok(Call::Files { jobs, names })
}

/// Digits alone: `parse` would take a sign too.
fn jobs(word: OsString) -> Option<usize> {
    let word = word
        .to_str()
        .filter(|word| word.bytes().all(|b| b.is_ascii_digit()))?;
    word.parse().ok().filter(|n| (1..=MOST_JOBS).contains(n))
}

/// As many files at a time as there are processors, where the call does not say.
fn processors() -> usize {
    std::thread::available_parallelism().map_or(1, |n| n.get().min(MOST_JOBS))
}
