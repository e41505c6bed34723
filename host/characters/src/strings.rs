//! Whole strings against Rust's own decoding: one sequence, well-formed or not, at every place of a
//! run of characters that is shorter than a block, ends with one, or goes on into the next ones.

use second::is_well_formed;
use std::fmt::{self, Display, Formatter};

/// Answers whether a string is well-formed.
pub type Check = fn(usize, &[u8]) -> bool;

pub struct Strings {
    u: usize,
    check: Check,
    compared: u64,
    well_formed: u64,
}

/// The first string of which the two did not say the same.
#[derive(Debug, PartialEq, Eq)]
pub struct Difference {
    u: usize,
    bytes: Vec<u8>,
    expected: bool,
}

/// Lengths of runs: around one, two and three blocks of 128 bytes.
const LENGTHS: [usize; 16] = [
    0, 1, 2, 3, 16, 64, 124, 126, 127, 128, 129, 130, 255, 256, 258, 384,
];

/// What is repeated: characters of one, two, three and four bytes of UTF-8.
const RUNS: [&str; 4] = ["a", "λ", "€", "😀"];

const SEQUENCES8: [&[u8]; 22] = [
    b"",
    b"\x00",
    b"\x7F",
    b"\x80",
    b"\xC1\xBF",
    b"\xC2\x80",
    b"\xC3",
    b"\xC3\xA9",
    b"\xDF\xC0",
    b"\xE0\x9F\xBF",
    b"\xE0\xA0\x80",
    b"\xE2\x82",
    b"\xE2\x82\xAC",
    b"\xED\x9F\xBF",
    b"\xED\xA0\x80",
    b"\xEE\x80\x80",
    b"\xF0\x8F\xBF\xBF",
    b"\xF0\x90\x80\x80",
    b"\xF0\x9F\x98",
    b"\xF4\x8F\xBF\xBF",
    b"\xF4\x90\x80\x80",
    b"\xFF",
];

const SEQUENCES16: [&[u8]; 9] = [
    b"",
    b"\x00",
    b"\x00a",
    b"\xD7\xFF",
    b"\xD8\x00",
    b"\xD8\x00\xDC\x00",
    b"\xDB\xFF\xDF\xFF",
    b"\xDC\x00",
    b"\xE0\x00",
];

impl Strings {
    pub fn new(u: usize, check: Check) -> Strings {
        Strings {
            u,
            check,
            compared: 0,
            well_formed: 0,
        }
    }

    /// Every sequence at every place between two characters of every run.
    pub fn compare_all(&mut self) -> Result<(), Difference> {
        let sequences: &[&[u8]] = if self.u == 0 {
            &SEQUENCES8
        } else {
            &SEQUENCES16
        };
        for repeated in RUNS {
            let character = self.encoded(repeated);
            for length in LENGTHS {
                let run = character.repeat(length / character.len());
                for at in (0..=run.len()).step_by(character.len()) {
                    let (before, behind) = run.split_at(at);
                    for sequence in sequences {
                        self.compare(&[before, sequence, behind].concat())?;
                    }
                }
            }
        }
        Ok(())
    }

    fn encoded(&self, text: &str) -> Vec<u8> {
        if self.u == 0 {
            return text.as_bytes().to_vec();
        }
        text.encode_utf16().flat_map(u16::to_be_bytes).collect()
    }

    fn compare(&mut self, s: &[u8]) -> Result<(), Difference> {
        let expected = is_well_formed(self.u, s);
        if (self.check)(self.u, s) != expected {
            return Err(Difference {
                u: self.u,
                bytes: s.to_vec(),
                expected,
            });
        }
        self.compared += 1;
        self.well_formed += u64::from(expected);
        Ok(())
    }
}

impl Display for Strings {
    fn fmt(&self, f: &mut Formatter<'_>) -> fmt::Result {
        let Strings {
            compared,
            well_formed,
            ..
        } = self;
        write!(f, "{compared} strings compared, {well_formed} well-formed")
    }
}

impl Display for Difference {
    fn fmt(&self, f: &mut Formatter<'_>) -> fmt::Result {
        let encoding = if self.u == 0 { "UTF-8" } else { "UTF-16" };
        let verdict = if self.expected { "" } else { "not " };
        write!(
            f,
            "difference: {encoding}, bytes {:02X?}: Rust says {verdict}well-formed",
            self.bytes
        )
    }
}

#[cfg(test)]
mod tests {
    use super::*;

    /// Does not look behind a first block of ASCII.
    fn one_block(u: usize, s: &[u8]) -> bool {
        s.get(..128).is_some_and(<[u8]>::is_ascii) || is_well_formed(u, s)
    }

    /// Takes a last byte of its own for a unit.
    fn half_a_unit(u: usize, s: &[u8]) -> bool {
        is_well_formed(u, &s[..s.len() / 2 * 2])
    }

    #[test]
    fn a_wrong_check_is_found_out() {
        let difference = Strings::new(0, one_block).compare_all().unwrap_err();
        assert_eq!((difference.bytes.len(), difference.expected), (129, false));
        let difference = Strings::new(1, half_a_unit).compare_all().unwrap_err();
        assert_eq!((difference.bytes.len(), difference.expected), (1, false));
    }
}
