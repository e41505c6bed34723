//! The writers.

use crate::{LONGEST_DESCRIPTION, LONGEST_SAMPLE};
use std::str::from_utf8;

const SIZE_LIMITS: std::ops::RangeInclusive<usize> = 14..=1400;
const MOST_PARTS: usize = 15;

/// A part as it will be written.
struct Piece<'a> {
    kind: u8,
    data: &'a [u8],
}

/// Writes payload `k` of a sample; answers its length and the count of payloads.
#[allow(clippy::too_many_arguments)]
pub fn write(
    u: usize,
    sidx: usize,
    sdur: usize,
    string: &[u8],
    modifiers: &[u8],
    m: usize,
    k: usize,
    out: &mut [u8],
) -> Result<(usize, usize), u8> {
    let sample = string.len() + modifiers.len();
    let in_range = u <= 1 && sidx <= 254 && sdur < 1 << 24 && sample <= LONGEST_SAMPLE;
    if !in_range || !limit_fits(m, out) || !is_well_formed(u, string) {
        return Err(12);
    }
    let first = (u as u8) << 7;
    let sdur = &(sdur as u32).to_be_bytes()[1..];
    if sample + 9 <= m {
        let tlen = (string.len() as u16).to_be_bytes();
        let head = [&[sidx as u8], sdur, &tlen].concat();
        return only(k, || lay(first | 1, &[&head, string, modifiers], out));
    }
    let pieces = cut(u, string, modifiers, m)?;
    let piece = k.checked_sub(1).and_then(|k| pieces.get(k)).ok_or(14)?;
    let numbers = [(pieces.len() << 4 | k) as u8];
    let slen = (sample as u16).to_be_bytes();
    let length = if piece.kind == 2 {
        let head = [&numbers, sdur, &[sidx as u8], &slen].concat();
        lay(first | 2, &[&head, piece.data], out)
    } else {
        lay(piece.kind, &[&numbers, sdur, piece.data], out)
    };
    Ok((length, pieces.len()))
}

/// Writes a description as one payload; answers its length and the count 1.
pub fn describe(
    sidx: usize,
    d: &[u8],
    m: usize,
    k: usize,
    out: &mut [u8],
) -> Result<(usize, usize), u8> {
    if sidx > 127 || !(1..=LONGEST_DESCRIPTION).contains(&d.len()) || !limit_fits(m, out) {
        return Err(12);
    }
    if d.len() + 4 > m {
        return Err(13);
    }
    only(k, || lay(5, &[&[sidx as u8], d], out))
}

/// Writes the only payload there is.
fn only(k: usize, payload: impl FnOnce() -> usize) -> Result<(usize, usize), u8> {
    if k != 1 {
        return Err(14);
    }
    Ok((payload(), 1))
}

fn limit_fits(m: usize, out: &[u8]) -> bool {
    SIZE_LIMITS.contains(&m) && out.len() >= m
}

/// Lays down byte 0, LEN and the fields; answers the unit's length.
fn lay(first: u8, fields: &[&[u8]], out: &mut [u8]) -> usize {
    let mut end = 3;
    for field in fields {
        let start = end;
        end += field.len();
        out[start..end].copy_from_slice(field);
    }
    out[0] = first;
    out[1..3].copy_from_slice(&((end - 1) as u16).to_be_bytes());
    end
}

/// Cuts a sample that is too long for one payload.
fn cut<'a>(
    u: usize,
    string: &'a [u8],
    modifiers: &'a [u8],
    m: usize,
) -> Result<Vec<Piece<'a>>, u8> {
    let mut pieces = Vec::new();
    let mut left = string;
    while !left.is_empty() {
        let (data, after) = left.split_at(whole_characters(u, left, m - 10));
        pieces.push(Piece { kind: 2, data });
        left = after;
    }
    for (number, data) in modifiers.chunks(m - 7).enumerate() {
        let kind = if number == 0 { 3 } else { 4 };
        pieces.push(Piece { kind, data });
    }
    if string.is_empty() || pieces.len() > MOST_PARTS {
        return Err(13);
    }
    Ok(pieces)
}

/// The length of as many characters as fit in `most` bytes of a well-formed string.
fn whole_characters(u: usize, string: &[u8], most: usize) -> usize {
    if most >= string.len() {
        return string.len();
    }
    if u == 0 {
        let begins = |end: &usize| string[*end] & 0xC0 != 0x80;
        return (0..=most).rev().find(begins).unwrap_or(0);
    }
    let even = most - most % 2;
    let in_a_pair = (0xDC..=0xDF).contains(&string[even]);
    even - if in_a_pair { 2 } else { 0 }
}

/// What Rust's own decoders say of a string.
pub fn is_well_formed(u: usize, string: &[u8]) -> bool {
    if u == 0 {
        return from_utf8(string).is_ok();
    }
    let units = string.chunks_exact(2);
    let even = units.remainder().is_empty();
    let units = units.map(|unit| u16::from_be_bytes([unit[0], unit[1]]));
    even && char::decode_utf16(units).all(|character| character.is_ok())
}
