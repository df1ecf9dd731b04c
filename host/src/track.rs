use crate::exports::{self, Answer};
use crate::letters::FourLetters;
use crate::refusal::Refusal;
use std::fmt;

/// A track of a recording, and its samples.
#[derive(Clone)]
pub struct Track<'a> {
    file: &'a [u8],
    place: usize, // in the moov box, counted from 0
    number: u32,
}

/// What a track tells of itself.
#[derive(Clone, Debug, PartialEq)]
pub struct Summary {
    /// The number that the file gives to the track; never 0.
    pub number: u32,
    /// What kind of track it is, such as `vide` or `soun`.
    pub handler: FourLetters,
    /// The type of the first sample entry, such as `avc1` or `mp4a`, if there is one.
    pub entry: Option<FourLetters>,
    /// How many units of the track's time are a second; never 0.
    pub timescale: u32,
    /// The duration that the file gives, in units of the track's time.
    pub duration: u64,
    /// The same in whole microseconds.
    pub micros: u64,
    /// How many samples the track has.
    pub samples: u32,
    /// The bytes of all its samples.
    pub bytes: u64,
    /// Whole frames to a second of that duration, 0 where it is below a millisecond.
    pub frame_rate: f64,
    /// The width at which the track is shown; exact.
    pub width: f64,
    /// The height at which the track is shown; exact.
    pub height: f64,
    /// The letters of the language, such as `und`. A file can have other characters there than `a` to `z`.
    pub language: [char; 3],
}

/// One sample: a picture or a piece of sound.
#[derive(Clone, Copy, Debug, PartialEq, Eq, Hash)]
pub struct Sample {
    /// Its number in the track; the first is 1.
    pub number: u32,
    /// The bytes before it in the file.
    pub offset: u64,
    /// Its own bytes.
    pub size: u32,
    /// When it is decoded, in units of the track's time.
    pub time: u64,
    /// How long it lasts.
    pub duration: u32,
    /// How much later it is shown than decoded; may be below 0.
    pub composition: i64,
    /// Whether decoding may begin with it.
    pub is_sync: bool,
}

// The words of a sample, and of a summary, in the library's answers.
const RECORD: usize = 7;
const SUMMARY: usize = 12;

impl<'a> Track<'a> {
    // The track at a place in the moov box, if there is one.
    pub(crate) fn at(file: &'a [u8], place: usize) -> Result<Option<Track<'a>>, Refusal> {
        match done(exports::track(file, place)) {
            Ok(number) => Ok(Some(Track {
                file,
                place,
                number: number as u32,
            })),
            Err(Refusal::Missing {
                letters: FourLetters([b't', b'r', b'a', b'k']),
            }) => Ok(None),
            Err(refusal) => Err(refusal),
        }
    }

    /// The number that the file gives to the track.
    pub fn number(&self) -> u32 {
        self.number
    }

    /// What the track tells of itself. Refused, as [`Refusal::OutOfRange`], where its duration has no 64 bits in
    /// microseconds.
    pub fn summary(&self) -> Result<Summary, Refusal> {
        let mut words = [0; SUMMARY];
        done(exports::summary(self.file, self.place, &mut words))?;
        Ok(Summary::of(words))
    }

    /// All samples of the track, in their order.
    pub fn samples(&self) -> Result<Vec<Sample>, Refusal> {
        // where no room is lent, the refusal tells how many there are
        let many = match done(exports::list(self.file, self.place, &mut [])) {
            Ok(none) => none,
            Err(Refusal::NoRoom { needed }) => needed,
            Err(refusal) => return Err(refusal),
        };
        let mut words = vec![0; many as usize * RECORD];
        done(exports::list(self.file, self.place, &mut words))?;
        Ok(words.chunks_exact(RECORD).map(Sample::of).collect())
    }

    /// The sample of this number; the first is 1. It is found from the tables without listing the others.
    pub fn sample(&self, number: u32) -> Result<Sample, Refusal> {
        let mut words = [0; RECORD];
        done(exports::sample(self.file, self.place, number, &mut words))?;
        Ok(Sample::of(&words))
    }

    /// The bytes of a sample, where they lie in the file; none where some of them lie outside of it.
    pub fn media(&self, sample: &Sample) -> Option<&'a [u8]> {
        let start = usize::try_from(sample.offset).ok()?;
        let end = start.checked_add(sample.size as usize)?;
        self.file.get(start..end)
    }
}

impl fmt::Debug for Track<'_> {
    fn fmt(&self, f: &mut fmt::Formatter<'_>) -> fmt::Result {
        write!(f, "Track({})", self.number)
    }
}

impl Summary {
    fn of(words: [u64; SUMMARY]) -> Summary {
        Summary {
            number: words[0] as u32,
            handler: FourLetters::of(words[1] as u32),
            entry: match words[2] {
                0 => None,
                letters => Some(FourLetters::of(letters as u32)),
            },
            timescale: words[3] as u32,
            duration: words[4],
            micros: words[5],
            samples: words[6] as u32,
            bytes: words[7],
            frame_rate: words[8] as f64,
            width: words[9] as f64 / 65536.0,
            height: words[10] as f64 / 65536.0,
            language: [10, 5, 0].map(|above| letter(words[11] >> above)),
        }
    }
}

// A letter of a language is the last five bits and 0x60.
fn letter(bits: u64) -> char {
    (0x60 + (bits % 32) as u8) as char
}

impl Sample {
    fn of(words: &[u64]) -> Sample {
        Sample {
            number: words[0] as u32,
            offset: words[1],
            size: words[2] as u32,
            time: words[3],
            duration: words[4] as u32,
            composition: words[5] as i64,
            is_sync: words[6] == 1,
        }
    }
}

// What comes with an answer, or the refusal.
fn done(answer: Answer) -> Result<u64, Refusal> {
    match answer.number {
        0 => Ok(answer.also),
        number => Err(Refusal::of(number, answer.also)),
    }
}
