//! The byte sequences to try.

use crate::comparison::Difference;

/// Looks at one place of one sequence.
type Visit<'a> = &'a mut dyn FnMut(&[u8], usize) -> Result<(), Difference>;

const fn all_bytes() -> [u8; 256] {
    let mut bytes = [0; 256];
    let mut next = 0;
    while next < 256 {
        bytes[next] = next as u8;
        next += 1;
    }
    bytes
}

const ALL: &[u8] = &all_bytes();

/// Both sides of every edge between the ranges of UTF-8 bytes.
const EDGES: &[u8] = &[
    0x00, 0x7F, 0x80, 0x81, 0x8F, 0x90, 0x91, 0x9F, 0xA0, 0xA1, 0xBE, 0xBF, 0xC0, 0xC1, 0xC2, 0xDF,
    0xE0, 0xEF, 0xF0, 0xF4, 0xF5, 0xFF,
];
const BEHIND: &[u8] = &[0x00, 0x80, 0xFF];

/// High and low bytes of the units at every edge between the ranges of UTF-16 units.
const HIGH: &[u8] = &[
    0x00, 0x01, 0x7F, 0xD7, 0xD8, 0xD9, 0xDB, 0xDC, 0xDD, 0xDF, 0xE0, 0xFF,
];
const LOW: &[u8] = &[0x00, 0x01, 0x7F, 0x80, 0xFE, 0xFF];
const FIRST_SURROGATE: &[u8] = &[0xD8, 0xD9, 0xDA, 0xDB];
const SECOND_SURROGATE: &[u8] = &[0xDC, 0xDD, 0xDE, 0xDF];

/// Every UTF-8 sequence that can matter.
pub fn utf8(visit: Visit) -> Result<(), Difference> {
    empty(visit)?;
    each(b"", &[ALL], visit)?;
    each(b"", &[ALL, ALL], visit)?;
    each(b"", &[ALL, ALL, ALL], visit)?;
    each(b"", &[ALL, ALL, EDGES, EDGES], visit)?;
    each(b"", &[ALL, EDGES, EDGES, EDGES, BEHIND], visit)?;
    for before in [&b"a"[..], b"\xF0\x9F", b"\xE2\x82\xAC"] {
        each(before, &[], visit)?;
        each(before, &[ALL], visit)?;
        each(before, &[ALL, EDGES], visit)?;
        each(before, &[ALL, EDGES, EDGES], visit)?;
        each(before, &[ALL, EDGES, EDGES, EDGES], visit)?;
    }
    Ok(())
}

/// Every UTF-16 sequence that can matter.
pub fn utf16(visit: Visit) -> Result<(), Difference> {
    empty(visit)?;
    each(b"", &[FIRST_SURROGATE, ALL, SECOND_SURROGATE, ALL], visit)?;
    for before in [&b""[..], b"a", b"\xD8\x00", b"\x00a\xDC"] {
        each(before, &[], visit)?;
        each(before, &[ALL], visit)?;
        each(before, &[ALL, ALL], visit)?;
        each(before, &[ALL, ALL, HIGH], visit)?;
        each(before, &[ALL, ALL, HIGH, LOW], visit)?;
        each(before, &[ALL, ALL, HIGH, LOW, BEHIND], visit)?;
    }
    Ok(())
}

/// Places at and beyond the end of nothing and of one byte.
fn empty(visit: Visit) -> Result<(), Difference> {
    for at in [0, 1, 2, usize::MAX - 1, usize::MAX] {
        visit(b"", at)?;
        visit(b"a", at)?;
    }
    Ok(())
}

/// Visits the place behind `before` of every sequence that takes one byte of each choice.
fn each(before: &[u8], choices: &[&[u8]], visit: Visit) -> Result<(), Difference> {
    let mut sequence = before.to_vec();
    extend(&mut sequence, choices, &mut |s| visit(s, before.len()))
}

fn extend(
    sequence: &mut Vec<u8>,
    choices: &[&[u8]],
    visit: &mut dyn FnMut(&[u8]) -> Result<(), Difference>,
) -> Result<(), Difference> {
    let Some((&here, later)) = choices.split_first() else {
        return visit(sequence);
    };
    for &byte in here {
        sequence.push(byte);
        extend(sequence, later, visit)?;
        sequence.pop();
    }
    Ok(())
}
