//! What is said of the files of crates/framewitness, whose lines the program is held to as well.

use crate::files::Files;
use framewitness::{Finding, FourLetters, Recording, Refusal, Verdict};
use std::thread;

/// Each file, lent and mapped.
pub fn of_all_files(files: &Files) {
    let lines = files.lines();
    assert!(lines.len() > 400);
    for (name, line) in lines {
        let verdict = Recording::lend(&files.bytes(&name)).audit();
        assert_eq!(line_of(&verdict), line, "{name}");
        let mapped = Recording::open(files.path(&name)).unwrap();
        assert_eq!(mapped.audit(), verdict, "{name}");
    }
}

/// A finding and a refusal of each kind, and each of them has just its own fields.
pub fn by_their_types(files: &Files) {
    let found = |name, finding| assert_eq!(audit(files, name), Verdict::Found(finding), "{name}");
    let refused =
        |name, refusal| assert_eq!(audit(files, name), Verdict::Refused(refusal), "{name}");

    let clean = Verdict::Clean {
        tracks: 1,
        samples: 6,
        media: 210,
    };
    assert_eq!(audit(files, "clean_case2.mp4"), clean);
    found("f1_second_track.mp4", Finding::CountsDiffer { track: 7 });
    found(
        "f2_middle.mp4",
        Finding::NoBytes {
            track: 1,
            sample: 2,
        },
    );
    found(
        "f3_middle.mp4",
        Finding::NoTime {
            track: 1,
            sample: 2,
        },
    );
    found(
        "f4_far.mp4",
        Finding::Outside {
            track: 1,
            sample: 2,
            position: 4294967295,
        },
    );
    found(
        "f5_case2.mp4",
        Finding::Overlap {
            track: 1,
            sample: 5,
            position: 147,
        },
    );
    found("f6_case2.mp4", Finding::Unclaimed { position: 258 });
    found("f7_case8.mp4", Finding::NumberBreak { position: 699 });
    found(
        "f8_case7.mp4",
        Finding::TimeGap {
            track: 1,
            position: 735,
            gap: -1,
        },
    );

    refused("r1_left_in_moov.mp4", Refusal::Cut { position: 164 });
    refused("r2_large_15.mp4", Refusal::SmallBox { position: 0 });
    refused("r3_depth_11.mp4", Refusal::TooDeep { position: 236 });
    refused("r4_five_tracks.mp4", Refusal::OverLimit { position: 1464 });
    refused(
        "r5_moov.mp4",
        Refusal::Missing {
            letters: FourLetters(*b"moov"),
        },
    );
    refused("r6_moov.mp4", Refusal::Twice { position: 665 });
    refused("r7_mdhd.mp4", Refusal::UnknownVersion { position: 340 });
    refused("r8_timescale.mp4", Refusal::NotAllowed { position: 352 });
    refused("r9_time.mp4", Refusal::OutOfRange);
    refused("r10_both.mp4", Refusal::Mixed);
}

/// The numbers that a file can have are all there.
pub fn of_every_number(files: &Files) {
    let (mut findings, mut refusals, mut clean) = ([0; 9], [0; 14], 0);
    for (name, _) in files.lines() {
        match audit(files, &name) {
            Verdict::Clean { .. } => clean += 1,
            Verdict::Found(finding) => findings[finding.number() as usize] += 1,
            Verdict::Refused(refusal) => refusals[refusal.number() as usize] += 1,
        }
    }
    assert!(clean > 0);
    assert!(findings[1..=8].iter().all(|&n| n > 0), "{findings:?}");
    assert!(refusals[1..=10].iter().all(|&n| n > 0), "{refusals:?}");
    assert_eq!(refusals[11..], [0, 0, 0]);
}

/// One recording is asked from several threads, which have just the stack that the documentation asks for.
pub fn in_threads(files: &Files) {
    for name in [
        "ff_prog_av.mp4",
        "clean_fragments_1024.mp4",
        "clean_depth_10.mp4",
    ] {
        let recording = Recording::open(files.path(name)).unwrap();
        let told = || {
            let tracks = recording.tracks().unwrap();
            let last = tracks
                .last()
                .map(|track| (track.samples(), track.sample(1)));
            (recording.audit(), last)
        };
        let want = told();
        thread::scope(|scope| {
            let start = || {
                thread::Builder::new()
                    .stack_size(1 << 20)
                    .spawn_scoped(scope, told)
            };
            for thread in [start(), start(), start()] {
                assert_eq!(thread.unwrap().join().unwrap(), want);
            }
        });
    }
}

fn audit(files: &Files, name: &str) -> Verdict {
    Recording::lend(&files.bytes(name)).audit()
}

// The program's line.
fn line_of(verdict: &Verdict) -> String {
    match verdict {
        Verdict::Clean {
            tracks,
            samples,
            media,
        } => {
            format!("clean tracks={tracks} samples={samples} media={media}")
        }
        Verdict::Found(f) => format!(
            "F{} track={} sample={} position={} gap={} ({})",
            f.number(),
            f.track(),
            f.sample(),
            f.position(),
            f.gap(),
            f.meaning()
        ),
        Verdict::Refused(Refusal::Missing { letters }) => {
            let missing = Refusal::Missing { letters: *letters };
            format!("refused 5 detail={letters} ({})", missing.meaning())
        }
        Verdict::Refused(r) => {
            format!(
                "refused {} detail={} ({})",
                r.number(),
                r.detail(),
                r.meaning()
            )
        }
    }
}
