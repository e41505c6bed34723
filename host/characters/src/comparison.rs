//! One finder against Rust's own decoding.

use std::fmt::{self, Display, Formatter};

/// Answers the length of the character at a place of a string, 0 where none begins.
pub type Finder = fn(usize, &[u8], usize) -> usize;

pub struct Comparison {
    u: usize,
    finder: Finder,
    compared: u64,
    found: u64,
}

/// The first place where the two did not agree.
#[derive(Debug, PartialEq, Eq)]
pub struct Difference {
    pub u: usize,
    pub bytes: Vec<u8>,
    pub at: usize,
    pub answered: usize,
    pub expected: usize,
}

impl Comparison {
    pub fn new(u: usize, finder: Finder) -> Comparison {
        Comparison {
            u,
            finder,
            compared: 0,
            found: 0,
        }
    }

    pub fn compare(&mut self, s: &[u8], at: usize) -> Result<(), Difference> {
        let answered = (self.finder)(self.u, s, at);
        let expected = length_at(self.u, s, at);
        if answered != expected {
            return Err(Difference {
                u: self.u,
                bytes: s.to_vec(),
                at,
                answered,
                expected,
            });
        }
        self.compared += 1;
        self.found += u64::from(expected > 0);
        Ok(())
    }
}

/// What Rust's own decoding says.
fn length_at(u: usize, s: &[u8], at: usize) -> usize {
    let Some(rest) = s.get(at..) else {
        return 0;
    };
    if u == 0 {
        let valid = rest.utf8_chunks().next().map(|chunk| chunk.valid());
        let character = valid.and_then(|valid| valid.chars().next());
        return character.map_or(0, char::len_utf8);
    }
    let units = rest.chunks_exact(2);
    let units = units.map(|unit| u16::from_be_bytes([unit[0], unit[1]]));
    match char::decode_utf16(units).next() {
        Some(Ok(character)) => 2 * character.len_utf16(),
        _ => 0,
    }
}

impl Display for Comparison {
    fn fmt(&self, f: &mut Formatter<'_>) -> fmt::Result {
        let Comparison {
            compared, found, ..
        } = self;
        write!(f, "{compared} sequences compared, {found} with a character")
    }
}

impl Display for Difference {
    fn fmt(&self, f: &mut Formatter<'_>) -> fmt::Result {
        let encoding = if self.u == 0 { "UTF-8" } else { "UTF-16" };
        write!(
            f,
            "difference: {encoding}, bytes {:02X?}, place {}: the relay says {}, Rust says {}",
            self.bytes, self.at, self.answered, self.expected
        )
    }
}

#[cfg(test)]
mod tests {
    use super::*;
    use crate::sequences;

    #[test]
    fn rust_tells_the_lengths_of_known_characters() {
        let cases: [(usize, &[u8], usize, usize); 9] = [
            (0, b"a", 0, 1),
            (0, b"a\xE2\x82\xAC", 1, 3),
            (0, b"\xF0\x9F\x98\x80", 0, 4),
            (0, b"\xED\xA0\x80", 0, 0),
            (0, b"\xC0\x80", 0, 0),
            (0, b"a", 1, 0),
            (1, b"\x20\xAC\xFF", 0, 2),
            (1, b"\xD8\x3D\xDE\x00", 0, 4),
            (1, b"\xD8\x3D\xDE", 0, 0),
        ];
        for (u, s, at, expected) in cases {
            assert_eq!(length_at(u, s, at), expected, "{s:02X?}");
        }
    }

    /// Takes the surrogate D800 in UTF-8 for a character.
    fn wrong_in_utf8(u: usize, s: &[u8], at: usize) -> usize {
        let rest = s.get(at..).unwrap_or_default();
        if rest.starts_with(b"\xED\xA0\x80") {
            return 3;
        }
        length_at(u, s, at)
    }

    /// Takes a first surrogate for a character of its own.
    fn wrong_in_utf16(u: usize, s: &[u8], at: usize) -> usize {
        match length_at(u, s, at) {
            0 if s.get(at..).unwrap_or_default().len() == 3 => 2,
            length => length,
        }
    }

    #[test]
    fn a_wrong_finder_is_found_out() {
        let mut utf8 = Comparison::new(0, wrong_in_utf8);
        let difference = sequences::utf8(&mut |s, at| utf8.compare(s, at)).unwrap_err();
        assert_eq!(difference.bytes, b"\xED\xA0\x80");
        assert_eq!((difference.answered, difference.expected), (3, 0));
        let mut utf16 = Comparison::new(1, wrong_in_utf16);
        let difference = sequences::utf16(&mut |s, at| utf16.compare(s, at)).unwrap_err();
        assert_eq!(difference.bytes, b"\xD8\x00\x00");
    }
}
