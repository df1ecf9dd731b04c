use std::fmt;

/// The four letters that name a box, a handler or a sample entry, such as `moov` or `vide`.
#[derive(Clone, Copy, PartialEq, Eq, PartialOrd, Ord, Hash)]
pub struct FourLetters(pub [u8; 4]);

impl FourLetters {
    /// The letters of a number: its bytes, the most significant first.
    pub fn of(number: u32) -> FourLetters {
        FourLetters(number.to_be_bytes())
    }

    /// The number of these letters.
    pub fn number(self) -> u32 {
        u32::from_be_bytes(self.0)
    }
}

/// A byte that is no printable ASCII is shown as `?`, so that a file can not write to a terminal as it likes.
impl fmt::Display for FourLetters {
    fn fmt(&self, f: &mut fmt::Formatter<'_>) -> fmt::Result {
        let shown: String = self.0.iter().map(|&byte| shown(byte)).collect();
        f.pad(&shown)
    }
}

impl fmt::Debug for FourLetters {
    fn fmt(&self, f: &mut fmt::Formatter<'_>) -> fmt::Result {
        write!(f, "FourLetters({:?})", self.to_string())
    }
}

fn shown(byte: u8) -> char {
    match byte {
        0x20..=0x7e => byte as char,
        _ => '?',
    }
}
