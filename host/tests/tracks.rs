//! Tracks and their samples.

use crate::files::Files;
use framewitness::{FourLetters, Recording, Refusal, Sample, Summary, Track, Verdict};

const HEADING: &str = "track\tnumber\toffset\tsize\ttime\tduration\tcomposition\tsync\n";

/// The lists that the program is held to.
pub fn as_listed(files: &Files) {
    let lists = files.lists();
    assert!(lists.len() > 5);
    for (name, list) in lists {
        let recording = Recording::open(files.path(&name)).unwrap();
        let mut told = HEADING.to_string();
        for track in recording.tracks().unwrap() {
            told.extend(
                track
                    .samples()
                    .unwrap()
                    .iter()
                    .map(|s| line_of(track.number(), s)),
            );
        }
        assert_eq!(told, list, "{name}");
    }
}

/// A file has tracks just where it is not refused, and they have as many samples and bytes as the audit says.
pub fn of_all_files(files: &Files) {
    for (name, _) in files.lines() {
        let recording = Recording::open(files.path(&name)).unwrap();
        let verdict = recording.audit();
        match (verdict, recording.tracks()) {
            (Verdict::Refused(refusal), Err(other)) => assert_eq!(other, refusal, "{name}"),
            (
                Verdict::Clean {
                    tracks,
                    samples,
                    media,
                },
                Ok(all),
            ) => {
                let listed: Vec<Sample> = all
                    .iter()
                    .flat_map(|track| track.samples().unwrap())
                    .collect();
                let bytes: u64 = listed.iter().map(|s| s.size as u64).sum();
                assert_eq!(all.len(), tracks as usize, "{name}");
                assert_eq!((listed.len() as u64, bytes), (samples, media), "{name}");
                all.iter().for_each(|track| assert_sound(track, &name));
            }
            (Verdict::Found(_), Ok(all)) => all.iter().for_each(|track| assert_sound(track, &name)),
            (_, other) => panic!("{name}: {verdict:?} and {other:?}"),
        }
    }
}

// The samples are those that the summary counts, in their order. One file has a track without a summary.
fn assert_sound(track: &Track, name: &str) {
    let samples = track.samples().unwrap();
    let numbers = samples.iter().map(|s| s.number);
    assert!(numbers.eq(1..=samples.len() as u32), "{name}");
    match track.summary() {
        Ok(summary) => {
            let bytes = samples.iter().map(|s| s.size as u64).sum::<u64>();
            let counted = (summary.samples as usize, summary.bytes);
            assert_eq!(counted, (samples.len(), bytes), "{name}");
        }
        Err(refusal) => {
            assert_eq!(refusal, Refusal::OutOfRange, "{name}");
            assert_eq!(name, "clean_duration_unknown.mp4");
        }
    }
}

/// A sample by its number is that of the list, and there are no others.
pub fn one_by_one(files: &Files) {
    let mut names: Vec<String> = files.lists().into_iter().map(|(name, _)| name).collect();
    names.extend(["ff_prog_av.mp4", "gst_frag_v.mp4", "f1_stts_less.mp4"].map(String::from));
    for name in names {
        let recording = Recording::open(files.path(&name)).unwrap();
        for track in recording.tracks().unwrap() {
            let samples = track.samples().unwrap();
            for sample in &samples {
                assert_eq!(track.sample(sample.number), Ok(*sample), "{name}");
            }
            for number in [0, samples.len() as u32 + 1, u32::MAX] {
                let none = Refusal::NoSuchSample {
                    number: number.into(),
                };
                assert_eq!(track.sample(number), Err(none), "{name}");
            }
        }
    }
}

pub fn by_number(files: &Files) {
    let recording = Recording::open(files.path("f1_second_track.mp4")).unwrap();
    let numbers: Vec<u32> = recording
        .tracks()
        .unwrap()
        .iter()
        .map(Track::number)
        .collect();
    assert_eq!(numbers, [1, 7]);
    assert_eq!(recording.track(7).unwrap().unwrap().number(), 7);
    assert_eq!(recording.track(1).unwrap().unwrap().number(), 1);
    assert!(recording.track(2).unwrap().is_none());
    assert!(recording.track(0).unwrap().is_none());

    let refused = Recording::open(files.path("r10_both.mp4")).unwrap();
    assert_eq!(refused.track(1).unwrap_err(), Refusal::Mixed);
}

/// The bytes of the samples are the file's own and no copy, and together all the media data of a clean file.
pub fn media_bytes(files: &Files) {
    for (name, start, end) in [("clean_case2.mp4", 48, 258), ("ff_prog_av.mp4", 48, 30998)] {
        let bytes = files.bytes(name);
        let recording = Recording::lend(&bytes);
        let mut parts = Vec::new();
        for track in recording.tracks().unwrap() {
            for sample in track.samples().unwrap() {
                parts.push(track.media(&sample).unwrap().as_ptr_range());
            }
        }
        parts.sort_by_key(|part| part.start);
        assert_eq!(parts[0].start, &bytes[start]);
        assert!(
            parts.windows(2).all(|two| two[0].end == two[1].start),
            "{name}"
        );
        assert_eq!(parts.last().unwrap().end, &bytes[end]);
    }
}

/// The first sample of this file passes its end, the second lies behind it.
pub fn media_outside(files: &Files) {
    let bytes = files.bytes("f4_sizes_64.mp4");
    let recording = Recording::lend(&bytes);
    let track = &recording.tracks().unwrap()[0];
    for sample in track.samples().unwrap() {
        assert_eq!(track.media(&sample), None);
    }
    let last = bytes.len() as u64;
    let sample = track.sample(2).unwrap();
    assert_eq!(
        track
            .media(&Sample {
                offset: last - 10,
                ..sample
            })
            .unwrap()
            .len(),
        10
    );
    assert_eq!(
        track.media(&Sample {
            offset: last - 9,
            ..sample
        }),
        None
    );
    assert_eq!(
        track.media(&Sample {
            offset: u64::MAX,
            ..sample
        }),
        None
    );
}

/// The numbers were read off the bytes of the boxes, by hand.
pub fn summed_up(files: &Files) {
    let recording = Recording::open(files.path("ff_prog_av.mp4")).unwrap();
    let tracks = recording.tracks().unwrap();
    let video = Summary {
        number: 1,
        handler: FourLetters(*b"vide"),
        entry: Some(FourLetters(*b"avc1")),
        timescale: 12800,
        duration: 51200,
        micros: 4_000_000,
        samples: 100,
        bytes: 14632,
        frame_rate: 25.0,
        width: 128.0,
        height: 96.0,
        language: ['u', 'n', 'd'],
    };
    assert_eq!(tracks[0].summary(), Ok(video));
    let sound = Summary {
        number: 2,
        handler: FourLetters(*b"soun"),
        entry: Some(FourLetters(*b"mp4a")),
        timescale: 48000,
        duration: 193024,
        micros: 4_021_333,
        samples: 189,
        bytes: 16318,
        frame_rate: 47.0,
        width: 0.0,
        height: 0.0,
        language: ['u', 'n', 'd'],
    };
    assert_eq!(tracks[1].summary(), Ok(sound));

    let bare = Recording::open(files.path("clean_case2.mp4")).unwrap();
    let bare = bare.tracks().unwrap()[0].summary().unwrap();
    assert_eq!(bare.entry, Some(FourLetters(*b"none")));
    assert_eq!((bare.duration, bare.micros, bare.frame_rate), (0, 0, 0.0));
}

/// A duration that has no 64 bits in microseconds refuses the summary alone.
pub fn past_all_microseconds(files: &Files) {
    let mut bytes = files.bytes("clean_version_1.mp4");
    let mdhd = bytes.windows(4).position(|four| four == b"mdhd").unwrap();
    bytes[mdhd + 28..mdhd + 36].fill(0xff); // its duration, in version 1
    let recording = Recording::lend(&bytes);
    assert!(recording.audit().is_clean());
    let tracks = recording.tracks().unwrap();
    assert_eq!(tracks[0].number(), 1);
    assert_eq!(tracks[0].summary(), Err(Refusal::OutOfRange));
    let whole = Recording::open(files.path("clean_version_1.mp4")).unwrap();
    let want = whole.tracks().unwrap()[0].samples().unwrap();
    assert!(!want.is_empty());
    assert_eq!(tracks[0].samples(), Ok(want));
}

fn line_of(track: u32, s: &Sample) -> String {
    format!(
        "{track}\t{}\t{}\t{}\t{}\t{}\t{}\t{}\n",
        s.number, s.offset, s.size, s.time, s.duration, s.composition, s.is_sync as u8
    )
}
