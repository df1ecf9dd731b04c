use crate::exports::Answer;
use crate::many::Many;
use crate::refusal::Refusal;
use std::fmt;

/// The answer to a file: always the same one for the same bytes.
#[derive(Clone, Copy, Debug, PartialEq, Eq, Hash)]
pub enum Verdict {
    /// The tables of the file and its media data fit together. Read the numbers: a file may be clean and hold nothing.
    Clean {
        /// How many tracks the file has.
        tracks: u32,
        /// How many samples they have.
        samples: u64,
        /// How many bytes of media data there are.
        media: u64,
    },
    /// They do not. This is the first thing that was found; more may be wrong.
    Found(Finding),
    /// The file can not be read as an MP4 file, and its samples are not looked at.
    Refused(Refusal),
}

/// What does not fit, F1 to F8, each with what it is about. A track is named by its number, samples count from 1,
/// positions are numbers of bytes before something in the file.
#[derive(Clone, Copy, Debug, PartialEq, Eq, Hash)]
#[allow(missing_docs)] // of the fields: each is in the text above it
pub enum Finding {
    /// F1: the tables of a track do not count the same samples.
    CountsDiffer { track: u32 },
    /// F2: a sample has no bytes.
    NoBytes { track: u32, sample: u32 },
    /// F3: a sample lasts no time, and another one follows it.
    NoTime { track: u32, sample: u32 },
    /// F4: a sample, which begins at this position, lies outside the media data.
    Outside {
        track: u32,
        sample: u32,
        position: u64,
    },
    /// F5: a sample, which begins at this position, overlaps another one or lies before it.
    Overlap {
        track: u32,
        sample: u32,
        position: u64,
    },
    /// F6: the byte at this position is media data and belongs to no sample.
    Unclaimed { position: u64 },
    /// F7: the number of the fragment at this position does not follow the one before.
    NumberBreak { position: u64 },
    /// F8: the time of the fragment at this position does not follow the one before. The gap is how much later it begins
    /// than that one ends, in the units of time of the track, and below 0 where it begins earlier.
    TimeGap { track: u32, position: u64, gap: i64 },
}

impl Verdict {
    /// The verdict that the library answers by a number, what comes with it and four words.
    pub(crate) fn of(answer: Answer, words: [u64; 4]) -> Verdict {
        match (answer.number, answer.also) {
            (0, 0) => Verdict::Clean {
                tracks: words[0] as u32,
                samples: words[1],
                media: words[2],
            },
            (0, number) => Verdict::Found(Finding::of(number, words)),
            (number, detail) => Verdict::Refused(Refusal::of(number, detail)),
        }
    }

    /// Whether the file is clean.
    pub fn is_clean(&self) -> bool {
        matches!(self, Verdict::Clean { .. })
    }
}

impl Finding {
    fn of(number: u64, words: [u64; 4]) -> Finding {
        let (track, sample) = (words[0] as u32, words[1] as u32);
        let (position, gap) = (words[2], words[3] as i64);
        match number {
            1 => Finding::CountsDiffer { track },
            2 => Finding::NoBytes { track, sample },
            3 => Finding::NoTime { track, sample },
            4 => Finding::Outside {
                track,
                sample,
                position,
            },
            5 => Finding::Overlap {
                track,
                sample,
                position,
            },
            6 => Finding::Unclaimed { position },
            7 => Finding::NumberBreak { position },
            8 => Finding::TimeGap {
                track,
                position,
                gap,
            },
            _ => panic!("F{number} is no finding of the library: another archive is linked"),
        }
    }

    /// The finding's number, 1 to 8.
    pub fn number(&self) -> u32 {
        match self {
            Finding::CountsDiffer { .. } => 1,
            Finding::NoBytes { .. } => 2,
            Finding::NoTime { .. } => 3,
            Finding::Outside { .. } => 4,
            Finding::Overlap { .. } => 5,
            Finding::Unclaimed { .. } => 6,
            Finding::NumberBreak { .. } => 7,
            Finding::TimeGap { .. } => 8,
        }
    }

    /// The number of the track, 0 where the finding is about none.
    pub fn track(&self) -> u32 {
        match *self {
            Finding::CountsDiffer { track }
            | Finding::NoBytes { track, .. }
            | Finding::NoTime { track, .. }
            | Finding::Outside { track, .. }
            | Finding::Overlap { track, .. }
            | Finding::TimeGap { track, .. } => track,
            Finding::Unclaimed { .. } | Finding::NumberBreak { .. } => 0,
        }
    }

    /// The number of the sample in its track, 0 where the finding is about none.
    pub fn sample(&self) -> u32 {
        match *self {
            Finding::NoBytes { sample, .. }
            | Finding::NoTime { sample, .. }
            | Finding::Outside { sample, .. }
            | Finding::Overlap { sample, .. } => sample,
            _ => 0,
        }
    }

    /// The position in the file, 0 where the finding has none.
    pub fn position(&self) -> u64 {
        match *self {
            Finding::Outside { position, .. }
            | Finding::Overlap { position, .. }
            | Finding::Unclaimed { position }
            | Finding::NumberBreak { position }
            | Finding::TimeGap { position, .. } => position,
            _ => 0,
        }
    }

    /// The gap of F8, 0 for every other finding.
    pub fn gap(&self) -> i64 {
        match *self {
            Finding::TimeGap { gap, .. } => gap,
            _ => 0,
        }
    }

    /// What the number means, without its track, sample and position, for a reader who knows nothing of MP4.
    pub fn meaning(&self) -> &'static str {
        match self {
            Finding::CountsDiffer { .. } => "the tables of a track do not count the same samples",
            Finding::NoBytes { .. } => "a sample has no bytes",
            Finding::NoTime { .. } => "a sample lasts no time and another follows it",
            Finding::Outside { .. } => "a sample lies outside the media data",
            Finding::Overlap { .. } => "a sample overlaps another one or lies before it",
            Finding::Unclaimed { .. } => "a byte of the media data belongs to no sample",
            Finding::NumberBreak { .. } => "a fragment's number does not follow the one before",
            Finding::TimeGap { .. } => "a fragment's time does not follow the one before",
        }
    }
}

/// A sentence with the numbers.
impl fmt::Display for Verdict {
    fn fmt(&self, f: &mut fmt::Formatter<'_>) -> fmt::Result {
        match self {
            Verdict::Clean {
                tracks,
                samples,
                media,
            } => write!(
                f,
                "Clean: the tables of the file and its media data fit together. It has {}, {} and {} of media data.",
                Many(*tracks as u64, "track"),
                Many(*samples, "sample"),
                Many(*media, "byte")
            ),
            Verdict::Found(finding) => {
                write!(f, "Not clean (finding F{}): {finding}.", finding.number())
            }
            Verdict::Refused(refusal) => {
                write!(f, "Refused (reason {}): {refusal}.", refusal.number())
            }
        }
    }
}

/// What was found, with the numbers, to stand within a sentence.
impl fmt::Display for Finding {
    fn fmt(&self, f: &mut fmt::Formatter<'_>) -> fmt::Result {
        match self {
            Finding::CountsDiffer { track } => {
                write!(f, "the tables of track {track} do not count the same samples")
            }
            Finding::NoBytes { track, sample } => {
                write!(f, "sample {sample} of track {track} has no bytes")
            }
            Finding::NoTime { track, sample } => write!(
                f,
                "sample {sample} of track {track} lasts no time and another follows it"
            ),
            Finding::Outside {
                track,
                sample,
                position,
            } => write!(
                f,
                "sample {sample} of track {track}, which begins {} into the file, lies outside the media data",
                Many(*position, "byte")
            ),
            Finding::Overlap {
                track,
                sample,
                position,
            } => write!(
                f,
                "sample {sample} of track {track}, which begins {} into the file, overlaps another one or lies before it",
                Many(*position, "byte")
            ),
            Finding::Unclaimed { position } => write!(
                f,
                "the byte that follows the first {} of the file is media data and belongs to no sample",
                Many(*position, "byte")
            ),
            Finding::NumberBreak { position } => write!(
                f,
                "the number of the fragment that lies {} into the file does not follow the one before",
                Many(*position, "byte")
            ),
            Finding::TimeGap {
                track,
                position,
                gap,
            } => write!(
                f,
                "the fragment that lies {} into the file comes {} of track {track} too {}",
                Many(*position, "byte"),
                Many(gap.unsigned_abs(), "time unit"),
                if *gap < 0 { "early" } else { "late" }
            ),
        }
    }
}
