//! What --help says. But for the calls, the summary and the limits it is what the proved program says
//! (crates/framewitness/src/help.rt), and expected/compare_host holds the two against each other.
use framewitness::{Finding, FourLetters, Refusal};

pub const VERSION: &str = concat!(
    "framewitness ",
    env!("CARGO_PKG_VERSION"),
    ", the host over the proved library\n"
);

/// What calls there are, for one that is wrong.
pub const CALLS: &str = "    framewitness FILE ...            audits files
    framewitness -- FILE ...         the same, where the first name begins with -
    framewitness --jobs N FILE ...   the same, N files at a time
    framewitness --list FILE         lists the samples of a file
    framewitness --summary FILE      sums up the tracks of a file
    framewitness --help              explains the verdicts
    framewitness --version           says which program this is
";

const LINES: &str = "framewitness FILE ...            audits files, and writes a line for each
framewitness -- FILE ...         the same, where the first name begins with -
framewitness --jobs N FILE ...   the same, N files at a time (see below)
framewitness --list FILE         lists the samples of a file (see below)
framewitness --summary FILE      sums up the tracks of a file (see below)
framewitness --help              writes this
framewitness --version           says which program this is

An MP4 file has media data, the bytes of its pictures and sounds, and tables
that say where in them each sample lies (a picture or a piece of sound) and
when it is played. The audit asks whether the two fit together. The same
bytes always have the same answer.

FILE: clean tracks=2 samples=289 media=33420
    They fit together: so many tracks, samples and bytes of media data.
FILE: F5 track=1 sample=5 position=147 gap=0 (words)
    They do not. This is the first thing that was found; more may be wrong.
    position is the number of bytes before it in the file. A number that
    this finding does not use is 0. gap is for F8 alone: how much later a
    fragment begins than the one before it ends, in the units of time of
    its track; below 0 where it begins earlier.
FILE: refused 1 detail=48 (words)
    The file can not be read as an MP4 file, and its samples are not looked
    at. detail is the position of the first fault; for 5 the four letters
    of what is missing; for 9 and 10 it is 0.
FILE: not read (words)
    Nothing is said of this file; the others are audited.

";

const BOUNDS: &str =
    "A list has a line for each sample, by track in the order of the moov box, tabs
between: the track and the number of the sample, the bytes before it in the
file and its own, when it is decoded and how long it lasts in the units of time
of its track, how much later it is shown, and 1 where decoding may begin with it.
A refused file has no list; its line is written instead.

A summary has a line for each track, tabs between: the track, the four letters
of its kind and of its first sample entry (- where it has none), the language,
the units of time to a second, the duration in these units and in microseconds,
the samples and their bytes, whole frames to a second, width and height in
pixels. A refused file has no summary; its line is written instead.

The lines are in the order of the files, however many are audited at a time: N
from 1 to 256, else as many as there are processors. A call that takes long shows
on a terminal how far it is. A file must not be changed while it is read; one
that was is not read, and where one is cut meanwhile the whole call may break off.

The exit status is 0 where every file is clean, 1 where one is not, and 2
where one was not read or the call is wrong.

Limits: a file of 1,073,741,824 bytes; 4 tracks; 65,536 samples to a track;
4,096 parts (boxes), 10 deep in each other; 1,024 fragments; times below
2 to the power of 63. Past a limit a file is refused.

Clean says: the tables of each track agree with each other. No sample is
empty, and none but a track's last lasts no time. Every byte of media data
belongs to exactly one sample. The samples of each track lie in the order of
their numbers. Fragments follow each other in number and in time. Read the
numbers beside the word: a file may be clean and hold nothing.

Clean does not say what the pictures show, nor who made the file, nor when.
Nothing is decoded. A file stays clean where neighbouring samples are merged
into one; where its first or last fragments are lost; where its timescale,
edit list, composition offsets or sync flags are changed. Bytes outside the
media data (the payloads of the mdat boxes at the top) are no part of it:
those of boxes that are not known, of free, skip, uuid and meta, and those
behind the known fields of a box.
";

// One of each, for its number and its meaning.
const FINDINGS: [Finding; 8] = [
    Finding::CountsDiffer { track: 0 },
    Finding::NoBytes {
        track: 0,
        sample: 0,
    },
    Finding::NoTime {
        track: 0,
        sample: 0,
    },
    Finding::Outside {
        track: 0,
        sample: 0,
        position: 0,
    },
    Finding::Overlap {
        track: 0,
        sample: 0,
        position: 0,
    },
    Finding::Unclaimed { position: 0 },
    Finding::NumberBreak { position: 0 },
    Finding::TimeGap {
        track: 0,
        position: 0,
        gap: 0,
    },
];

const REFUSALS: [Refusal; 10] = [
    Refusal::Cut { position: 0 },
    Refusal::SmallBox { position: 0 },
    Refusal::TooDeep { position: 0 },
    Refusal::OverLimit { position: 0 },
    Refusal::Missing {
        letters: FourLetters([0; 4]),
    },
    Refusal::Twice { position: 0 },
    Refusal::UnknownVersion { position: 0 },
    Refusal::NotAllowed { position: 0 },
    Refusal::OutOfRange,
    Refusal::Mixed,
];

pub fn text() -> String {
    let findings: String = FINDINGS
        .iter()
        .map(|f| format!("    F{}  {}\n", f.number(), f.meaning()))
        .collect();
    let refusals: String = REFUSALS
        .iter()
        .map(|q| format!("    {}  {}\n", q.number(), q.meaning()))
        .collect();
    format!("{LINES}Findings:\n{findings}\nRefusals:\n{refusals}\n{BOUNDS}")
}
