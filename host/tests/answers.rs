//! The library's own answers, with buffers that just suffice and that do not. A word that nobody writes is `UNTOUCHED`.

use crate::exports::{self, Answer};
use crate::files::Files;

const UNTOUCHED: u64 = 0xdead_beef_dead_beef;
const TRAK: u64 = 0x7472616b;
const MOOV: u64 = 0x6d6f6f76;

fn answer(number: u32, also: u64) -> Answer {
    Answer { number, also }
}

// What `ask` answers to a buffer of so many words, and the words afterwards.
fn asked(room: usize, ask: impl Fn(&mut [u64]) -> Answer) -> (Answer, Vec<u64>) {
    let mut words = vec![UNTOUCHED; room];
    let answer = ask(&mut words);
    (answer, words)
}

// Any buffer, of none to `most` words, is left as it was, and the answer is this one.
fn assert_refused(want: Answer, most: usize, ask: impl Fn(&mut [u64]) -> Answer) {
    for room in 0..=most {
        assert_eq!(asked(room, &ask), (want, vec![UNTOUCHED; room]));
    }
}

// Of a buffer with two words too many these are left; one word less than needed is 12.
fn assert_answered(want: Answer, needed: u64, words: &[u64], ask: impl Fn(&mut [u64]) -> Answer) {
    let more = [words, &[UNTOUCHED; 2]].concat();
    assert_eq!(asked(words.len(), &ask), (want, words.to_vec()));
    assert_eq!(asked(words.len() + 2, &ask), (want, more));
    assert_refused(answer(12, needed), words.len() - 1, &ask);
}

pub fn of_an_audit(files: &Files) {
    let asks = |name: &str, also, words: [u64; 4]| {
        let file = files.bytes(name);
        assert_answered(answer(0, also), 4, &words, |out| exports::audit(&file, out));
    };
    asks("clean_case2.mp4", 0, [1, 6, 210, 0]);
    asks("f5_case2.mp4", 5, [1, 5, 147, 0]);
    asks("f8_case7.mp4", 8, [1, 0, 735, u64::MAX]); // -1
}

pub fn of_a_number(files: &Files) {
    let file = files.bytes("f1_second_track.mp4");
    assert_eq!(exports::track(&file, 0), answer(0, 1));
    assert_eq!(exports::track(&file, 1), answer(0, 7));
    assert_eq!(exports::track(&file, 2), answer(5, TRAK));
}

pub fn of_a_list(files: &Files) {
    let file = files.bytes("clean_ctts.mp4");
    let words = [
        [1, 48, 10, 0, 1000, (-500i64) as u64, 1],
        [2, 58, 20, 1000, 1000, 2000, 0],
        [3, 78, 30, 2000, 1000, (-2147483648i64) as u64, 1],
    ];
    assert_answered(answer(0, 3), 3, &words.concat(), |out| {
        exports::list(&file, 0, out)
    });
}

pub fn of_one_sample(files: &Files) {
    let file = files.bytes("clean_case2.mp4");
    let words = [6, 198, 60, 4000, 500, 0, 1];
    assert_answered(answer(0, 1), 1, &words, |out| {
        exports::sample(&file, 0, 6, out)
    });
    for number in [0, 7] {
        // a small buffer is no reason while there is another one
        assert_refused(answer(11, number.into()), 8, |out| {
            exports::sample(&file, 0, number, out)
        });
    }
}

pub fn of_a_summary(files: &Files) {
    let file = files.bytes("clean_case2.mp4");
    let (vide, none, und) = (0x76696465, 0x6e6f6e65, 0x55c4);
    let words = [1, vide, none, 1000, 0, 0, 6, 210, 0, 0, 0, und];
    assert_answered(answer(0, 12), 12, &words, |out| {
        exports::summary(&file, 0, out)
    });
}

pub fn of_no_track(files: &Files) {
    let file = files.bytes("clean_case2.mp4");
    for place in [1, 4, usize::MAX] {
        let want = answer(5, TRAK);
        assert_eq!(exports::track(&file, place), want);
        assert_refused(want, 14, |out| exports::list(&file, place, out));
        assert_refused(want, 14, |out| exports::sample(&file, place, 1, out));
        assert_refused(want, 14, |out| exports::summary(&file, place, out));
    }
}

pub fn of_a_refused_file(files: &Files) {
    let file = files.bytes("r5_moov.mp4");
    let want = answer(5, MOOV);
    assert_refused(want, 14, |out| exports::audit(&file, out));
    assert_eq!(exports::track(&file, 0), want);
    assert_refused(want, 14, |out| exports::list(&file, 0, out));
    assert_refused(want, 14, |out| exports::sample(&file, 0, 1, out));
    assert_refused(want, 14, |out| exports::summary(&file, 0, out));
}
