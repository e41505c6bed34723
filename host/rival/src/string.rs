//! Strings.

use std::str::from_utf8;

/// Whether a string is well-formed by itself: UTF-8 where `u` is 0, else UTF-16.
pub fn is_well_formed(u: u8, string: &[u8]) -> bool {
    if u == 0 {
        // ASCII alone is told sooner by `is_ascii` than by `from_utf8`, and most strings are that.
        return string.is_ascii() || from_utf8(string).is_ok();
    }
    is_utf16(string)
}

/// A second half of a pair stands exactly behind each first half. The loop goes on where this fails,
/// so that many units are compared at once.
fn is_utf16(string: &[u8]) -> bool {
    let (units, rest) = string.as_chunks();
    let (mut good, mut in_pair) = (rest.is_empty(), false);
    for [high, _] in units {
        good &= in_pair == (high & 0xFC == 0xDC);
        in_pair = high & 0xFC == 0xD8;
    }
    good & !in_pair
}

#[cfg(test)]
mod tests {
    use super::*;

    const UNITS: [u16; 8] = [0, 0xD7FF, 0xD800, 0xDBFF, 0xDC00, 0xDFFF, 0xE000, 0xFFFF];

    fn assert_as_rust_says(units: &[u16]) {
        let mut string: Vec<u8> = units.iter().flat_map(|unit| unit.to_be_bytes()).collect();
        let good = String::from_utf16(units).is_ok();
        assert_eq!(is_well_formed(1, &string), good, "{units:04X?}");
        string.push(0);
        assert!(!is_well_formed(1, &string), "{units:04X?} and half a unit");
    }

    #[test]
    fn utf16_is_as_rust_decodes_it() {
        assert_as_rust_says(&[]);
        for a in UNITS {
            assert_as_rust_says(&[a]);
            for b in UNITS {
                assert_as_rust_says(&[a, b]);
                for c in UNITS {
                    assert_as_rust_says(&[a, b, c]);
                    assert_as_rust_says(&[&[0; 100][..], &[a, b, c], &[0; 30]].concat());
                }
            }
        }
    }

    #[test]
    fn utf8_is_as_rust_decodes_it() {
        for string in ["", "fox", "αλεπού", "😀"] {
            assert!(is_well_formed(0, string.as_bytes()));
            assert!(!is_well_formed(0, &[string.as_bytes(), b"\xCE"].concat()));
        }
    }
}
