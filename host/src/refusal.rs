use crate::letters::FourLetters;
use crate::many::Many;
use std::error::Error;
use std::fmt;

/// Why a question is not answered. Positions are numbers of bytes before the fault in the file.
#[derive(Clone, Copy, Debug, PartialEq, Eq, Hash)]
#[allow(missing_docs)] // of the fields: each is in the text above it
pub enum Refusal {
    /// 1: the file ends inside a field, or a part of it is larger than the part that holds it.
    Cut { position: u64 },
    /// 2: a box has a size that is smaller than its header.
    SmallBox { position: u64 },
    /// 3: boxes lie more than 10 deep in each other.
    TooDeep { position: u64 },
    /// 4: the file has more bytes, tracks, samples, boxes or fragments than are examined.
    OverLimit { position: u64 },
    /// 5: a box that every such file needs is missing.
    Missing { letters: FourLetters },
    /// 6: a box that may be there only once is there twice, or both `stco` and `co64` are.
    Twice { position: u64 },
    /// 7: a box has a version that is not known.
    UnknownVersion { position: u64 },
    /// 8: a field has a value that is not allowed.
    NotAllowed { position: u64 },
    /// 9: a place or a time that the file gives is out of range.
    OutOfRange,
    /// 10: the file has fragments, and also samples outside of them.
    Mixed,
    /// 11: the track has no sample of this number; the first is 1.
    NoSuchSample { number: u64 },
    /// 12: the room that is lent for the answer is too small. This crate lends enough, so its functions never say this.
    NoRoom { needed: u64 },
    /// 13: a value can not be written. Reading never says this.
    NotWritable,
}

impl Refusal {
    /// The refusal that the library answers by `number` and `detail`.
    pub(crate) fn of(number: u32, detail: u64) -> Refusal {
        let position = detail;
        match number {
            1 => Refusal::Cut { position },
            2 => Refusal::SmallBox { position },
            3 => Refusal::TooDeep { position },
            4 => Refusal::OverLimit { position },
            5 => Refusal::Missing {
                letters: FourLetters::of(detail as u32),
            },
            6 => Refusal::Twice { position },
            7 => Refusal::UnknownVersion { position },
            8 => Refusal::NotAllowed { position },
            9 => Refusal::OutOfRange,
            10 => Refusal::Mixed,
            11 => Refusal::NoSuchSample { number: detail },
            12 => Refusal::NoRoom { needed: detail },
            13 => Refusal::NotWritable,
            _ => panic!("{number} is no answer of the library: another archive is linked"),
        }
    }

    /// The refusal's number, 1 to 13.
    pub fn number(&self) -> u32 {
        match self {
            Refusal::Cut { .. } => 1,
            Refusal::SmallBox { .. } => 2,
            Refusal::TooDeep { .. } => 3,
            Refusal::OverLimit { .. } => 4,
            Refusal::Missing { .. } => 5,
            Refusal::Twice { .. } => 6,
            Refusal::UnknownVersion { .. } => 7,
            Refusal::NotAllowed { .. } => 8,
            Refusal::OutOfRange => 9,
            Refusal::Mixed => 10,
            Refusal::NoSuchSample { .. } => 11,
            Refusal::NoRoom { .. } => 12,
            Refusal::NotWritable => 13,
        }
    }

    /// What comes with the number: a position, four letters as a number, a sample's number, the room needed, or 0.
    pub fn detail(&self) -> u64 {
        match *self {
            Refusal::Cut { position }
            | Refusal::SmallBox { position }
            | Refusal::TooDeep { position }
            | Refusal::OverLimit { position }
            | Refusal::Twice { position }
            | Refusal::UnknownVersion { position }
            | Refusal::NotAllowed { position } => position,
            Refusal::Missing { letters } => letters.number().into(),
            Refusal::NoSuchSample { number } => number,
            Refusal::NoRoom { needed } => needed,
            Refusal::OutOfRange | Refusal::Mixed | Refusal::NotWritable => 0,
        }
    }

    /// What the number means, without its detail, for a reader who knows nothing of MP4.
    pub fn meaning(&self) -> &'static str {
        match self {
            Refusal::Cut { .. } => {
                "the file ends too early, or a part of it is larger than the part that holds it"
            }
            Refusal::SmallBox { .. } => {
                "a part of the file is said to be smaller than its own heading"
            }
            Refusal::TooDeep { .. } => "parts of the file lie more than 10 deep in each other",
            Refusal::OverLimit { .. } => {
                "the file has more bytes, tracks, samples, parts or fragments than are examined"
            }
            Refusal::Missing { .. } => "a part that every such file needs is missing",
            Refusal::Twice { .. } => "a part that may be there only once is there twice",
            Refusal::UnknownVersion { .. } => "a part of the file has a version that is not known",
            Refusal::NotAllowed { .. } => "a value in the file is not allowed",
            Refusal::OutOfRange => "a place or a time that the file gives is out of range",
            Refusal::Mixed => "the file has fragments and also samples outside of them",
            Refusal::NoSuchSample { .. } => "the track has no such sample",
            Refusal::NoRoom { .. } => "there is not enough room for the answer",
            Refusal::NotWritable => "a value can not be written",
        }
    }
}

/// The meaning, and what comes with it in words.
impl fmt::Display for Refusal {
    fn fmt(&self, f: &mut fmt::Formatter<'_>) -> fmt::Result {
        f.write_str(self.meaning())?;
        match self {
            Refusal::Missing { letters } => write!(f, ": {letters}"),
            Refusal::NoSuchSample { number } => write!(f, ": {number}"),
            Refusal::NoRoom { needed } => write!(f, ": {needed} are needed"),
            Refusal::OutOfRange | Refusal::Mixed | Refusal::NotWritable => Ok(()),
            _ => write!(
                f,
                " (noticed {} into the file)",
                Many(self.detail(), "byte")
            ),
        }
    }
}

impl Error for Refusal {}
