//! What is written for a reader.

use crate::files::Files;
use framewitness::{Finding, FourLetters, Refusal, Verdict};

const FINDINGS: [Finding; 8] = [
    Finding::CountsDiffer { track: 7 },
    Finding::NoBytes {
        track: 1,
        sample: 3,
    },
    Finding::NoTime {
        track: 2,
        sample: 1,
    },
    Finding::Outside {
        track: 1,
        sample: 2,
        position: 4294967344,
    },
    Finding::Overlap {
        track: 1,
        sample: 5,
        position: 147,
    },
    Finding::Unclaimed { position: 258 },
    Finding::NumberBreak { position: 505 },
    Finding::TimeGap {
        track: 1,
        position: 1106,
        gap: -1,
    },
];

const MOOV: FourLetters = FourLetters(*b"moov");
const REFUSALS: [Refusal; 13] = [
    Refusal::Cut { position: 48 },
    Refusal::SmallBox { position: 1 },
    Refusal::TooDeep { position: 3 },
    Refusal::OverLimit { position: 0 },
    Refusal::Missing { letters: MOOV },
    Refusal::Twice { position: 6 },
    Refusal::UnknownVersion { position: 7 },
    Refusal::NotAllowed { position: 8 },
    Refusal::OutOfRange,
    Refusal::Mixed,
    Refusal::NoSuchSample { number: 7 },
    Refusal::NoRoom { needed: 6 },
    Refusal::NotWritable,
];

pub fn of_verdicts(_: &Files) {
    let clean = Verdict::Clean {
        tracks: 1,
        samples: 6,
        media: 210,
    };
    assert_eq!(
        clean.to_string(),
        "Clean: the tables of the file and its media data fit together. It has 1 track, 6 samples and 210 bytes of media data."
    );
    assert!(clean.is_clean());
    let found = Verdict::Found(FINDINGS[4]);
    assert_eq!(
        found.to_string(),
        "Not clean (finding F5): sample 5 of track 1, which begins 147 bytes into the file, overlaps another one or lies before it."
    );
    assert!(!found.is_clean());
    let refused = Verdict::Refused(REFUSALS[4]);
    assert_eq!(
        refused.to_string(),
        "Refused (reason 5): a part that every such file needs is missing: moov."
    );
    assert!(!refused.is_clean());
}

pub fn of_findings(_: &Files) {
    let words = [
        "the tables of track 7 do not count the same samples",
        "sample 3 of track 1 has no bytes",
        "sample 1 of track 2 lasts no time and another follows it",
        "sample 2 of track 1, which begins 4294967344 bytes into the file, lies outside the media data",
        "sample 5 of track 1, which begins 147 bytes into the file, overlaps another one or lies before it",
        "the byte that follows the first 258 bytes of the file is media data and belongs to no sample",
        "the number of the fragment that lies 505 bytes into the file does not follow the one before",
        "the fragment that lies 1106 bytes into the file comes 1 time unit of track 1 too early",
    ];
    let numbers = [
        (7, 0, 0, 0),
        (1, 3, 0, 0),
        (2, 1, 0, 0),
        (1, 2, 4294967344, 0),
        (1, 5, 147, 0),
        (0, 0, 258, 0),
        (0, 0, 505, 0),
        (1, 0, 1106, -1),
    ];
    for (i, f) in FINDINGS.iter().enumerate() {
        assert_eq!(f.number() as usize, i + 1);
        assert_eq!(f.to_string(), words[i]);
        assert_eq!((f.track(), f.sample(), f.position(), f.gap()), numbers[i]);
    }
    let late = Finding::TimeGap {
        track: 2,
        position: 9,
        gap: 98,
    };
    assert!(late
        .to_string()
        .ends_with("comes 98 time units of track 2 too late"));
    let least = Finding::TimeGap {
        track: 2,
        position: 9,
        gap: i64::MIN,
    };
    assert!(least
        .to_string()
        .ends_with("comes 9223372036854775808 time units of track 2 too early"));
}

pub fn of_refusals(_: &Files) {
    let words = [
        "the file ends too early, or a part of it is larger than the part that holds it (noticed 48 bytes into the file)",
        "a part of the file is said to be smaller than its own heading (noticed 1 byte into the file)",
        "parts of the file lie more than 10 deep in each other (noticed 3 bytes into the file)",
        "the file has more bytes, tracks, samples, parts or fragments than are examined (noticed 0 bytes into the file)",
        "a part that every such file needs is missing: moov",
        "a part that may be there only once is there twice (noticed 6 bytes into the file)",
        "a part of the file has a version that is not known (noticed 7 bytes into the file)",
        "a value in the file is not allowed (noticed 8 bytes into the file)",
        "a place or a time that the file gives is out of range",
        "the file has fragments and also samples outside of them",
        "the track has no such sample: 7",
        "there is not enough room for the answer: 6 are needed",
        "a value can not be written",
    ];
    let details = [48, 1, 3, 0, 0x6d6f6f76, 6, 7, 8, 0, 0, 7, 6, 0];
    for (i, r) in REFUSALS.iter().enumerate() {
        assert_eq!(r.number() as usize, i + 1);
        assert_eq!(r.to_string(), words[i]);
        assert_eq!(r.detail(), details[i]);
    }
}

/// The meanings are the words that the proved program prints, in the order of the numbers.
pub fn are_the_program_s(files: &Files) {
    let source = files.text("src/meanings.rt");
    let mut rest = source.as_str();
    let findings = FINDINGS.iter().map(|f| f.meaning());
    let refusals = REFUSALS[..10].iter().map(|r| r.meaning());
    for meaning in findings.chain(refusals) {
        let quoted = format!("\"{meaning}\"");
        let at = rest
            .find(&quoted)
            .unwrap_or_else(|| panic!("{quoted} does not come next"));
        assert_eq!(
            rest[..at].matches('"').count(),
            0,
            "the program has one more before {quoted}"
        );
        rest = &rest[at + quoted.len()..];
    }
}

pub fn of_letters(_: &Files) {
    assert_eq!(FourLetters::of(0x6d6f6f76), MOOV);
    assert_eq!(MOOV.number(), 0x6d6f6f76);
    assert_eq!(MOOV.to_string(), "moov");
    assert_eq!(format!("{MOOV:>6}"), "  moov");
    assert_eq!(FourLetters(*b"a\x1b \xff").to_string(), "a? ?");
    assert_eq!(
        format!("{:?}", FourLetters(*b"url ")),
        "FourLetters(\"url \")"
    );
}
