//! The functions of the proved library. `checks/exports` holds these declarations against the library's source.

extern "C" {
    fn framewitness_audit(
        file: *const u8,
        length: usize,
        out: *mut u64,
        room: usize,
        also: *mut u64,
    ) -> u32;
    fn framewitness_track(file: *const u8, length: usize, place: usize, also: *mut u64) -> u32;
    fn framewitness_list(
        file: *const u8,
        length: usize,
        place: usize,
        out: *mut u64,
        room: usize,
        also: *mut u64,
    ) -> u32;
    fn framewitness_sample(
        file: *const u8,
        length: usize,
        place: usize,
        number: u32,
        out: *mut u64,
        room: usize,
        also: *mut u64,
    ) -> u32;
    fn framewitness_summary(
        file: *const u8,
        length: usize,
        place: usize,
        out: *mut u64,
        room: usize,
        also: *mut u64,
    ) -> u32;
}

/// An answer: 0 where the question is answered, else the number of a refusal; and what comes with it.
#[derive(Clone, Copy, Debug, PartialEq, Eq)]
pub struct Answer {
    pub number: u32,
    pub also: u64,
}

// Each of them requires nothing of its arguments but that they are what Rust's borrows are: `file` is read within its
// length alone, `out` and `also` are written within theirs, and the three lie apart.

pub fn audit(file: &[u8], out: &mut [u64]) -> Answer {
    let mut also = 0;
    // SAFETY: the pointers and lengths are those of borrows.
    let number = unsafe {
        framewitness_audit(
            file.as_ptr(),
            file.len(),
            out.as_mut_ptr(),
            out.len(),
            &mut also,
        )
    };
    Answer { number, also }
}

pub fn track(file: &[u8], place: usize) -> Answer {
    let mut also = 0;
    let number = unsafe { framewitness_track(file.as_ptr(), file.len(), place, &mut also) };
    Answer { number, also }
}

pub fn list(file: &[u8], place: usize, out: &mut [u64]) -> Answer {
    let mut also = 0;
    // SAFETY: the pointers and lengths are those of borrows.
    let number = unsafe {
        framewitness_list(
            file.as_ptr(),
            file.len(),
            place,
            out.as_mut_ptr(),
            out.len(),
            &mut also,
        )
    };
    Answer { number, also }
}

pub fn sample(file: &[u8], place: usize, number: u32, out: &mut [u64]) -> Answer {
    let mut also = 0;
    // SAFETY: the pointers and lengths are those of borrows.
    let number = unsafe {
        framewitness_sample(
            file.as_ptr(),
            file.len(),
            place,
            number,
            out.as_mut_ptr(),
            out.len(),
            &mut also,
        )
    };
    Answer { number, also }
}

pub fn summary(file: &[u8], place: usize, out: &mut [u64]) -> Answer {
    let mut also = 0;
    // SAFETY: the pointers and lengths are those of borrows.
    let number = unsafe {
        framewitness_summary(
            file.as_ptr(),
            file.len(),
            place,
            out.as_mut_ptr(),
            out.len(),
            &mut also,
        )
    };
    Answer { number, also }
}
