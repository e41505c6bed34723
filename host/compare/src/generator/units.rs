//! Units built by hand, and damage.

use super::cut;
use crate::random::Random;

const INDEXES: [u8; 8] = [0, 5, 127, 128, 129, 200, 254, 255];
const LENGTHS: [usize; 12] = [0, 1, 2, 5, 6, 20, 255, 256, 257, 1023, 1024, 1025];
const NUMBERS: [u16; 12] = [0, 1, 2, 5, 6, 20, 256, 1023, 1024, 1025, 3000, 65535];

/// Byte 0, LEN and the fields.
pub fn unit(first: u8, fields: &[&[u8]]) -> Vec<u8> {
    let fields = fields.concat();
    let len = (fields.len() + 2) as u16;
    [&[first], &len.to_be_bytes()[..], &fields].concat()
}

pub fn sdur_bytes(sdur: u32) -> [u8; 3] {
    let [_, sdur @ ..] = sdur.to_be_bytes();
    sdur
}

pub fn whole(u: u8, sidx: u8, sdur: u32, tlen: u16, data: &[u8]) -> Vec<u8> {
    let (sdur, tlen) = (sdur_bytes(sdur), tlen.to_be_bytes());
    unit(u << 7 | 1, &[&[sidx], &sdur, &tlen, data])
}

pub fn description(sidx: u8, data: &[u8]) -> Vec<u8> {
    unit(5, &[&[sidx], data])
}

/// What a part built by hand says.
#[derive(Clone, Copy)]
pub struct Head {
    pub kind: u8,
    pub u: u8,
    pub total: u8,
    pub this: u8,
    pub sdur: u32,
    pub sidx: u8,
    pub slen: u16,
}

pub fn part(head: Head, data: &[u8]) -> Vec<u8> {
    let first = head.u << 7 | head.kind;
    let numbers = [head.total << 4 | head.this];
    let sdur = sdur_bytes(head.sdur);
    if head.kind == 2 {
        let slen = head.slen.to_be_bytes();
        return unit(first, &[&numbers, &sdur, &[head.sidx], &slen, data]);
    }
    unit(first, &[&numbers, &sdur, data])
}

/// A part out of so few that repeats, conflicts, joins and spoiled samples are frequent. A few are
/// half a letter, each in one encoding or in both.
pub fn common_part(random: &mut Random, sdur: u32) -> Vec<u8> {
    let total = random.between(1, 3) as u8;
    let u = u8::from(random.percent(5));
    let data = match random.below(12) {
        0 => random.pick(&[&b"a"[..], b"\xC3", b"\xC3\xA9", b"\xD8\x3D", b"a\xDC\x00"]),
        _ if u == 1 => random.pick(&[&b"ab"[..], b"ab", b"\x00b", b"\x00a\x00b"]),
        _ => random.pick(&[&b"a"[..], b"a", b"b", b"ab"]),
    };
    let head = Head {
        kind: random.pick(&[2, 2, 2, 3, 4]),
        u,
        total,
        this: random.between(1, usize::from(total)) as u8,
        sdur,
        sidx: random.pick(&[128, 128, 128, 5]),
        slen: random.pick(&[2, 3, 3, 3, 4]),
    };
    part(head, data)
}

/// A unit of any TYPE whose fields are odd in every way but LEN.
pub fn odd(random: &mut Random) -> Vec<u8> {
    let first = random.byte();
    let sidx = [random.pick(&INDEXES)];
    let any = random.bytes(3);
    let sdur = if random.percent(20) { vec![0; 3] } else { any };
    let length = random.pick(&LENGTHS);
    let mut data = random.bytes(length);
    if random.percent(70) {
        let string = cut::string(usize::from(first >> 7), length, random);
        data[..string.len()].copy_from_slice(&string);
    }
    let near = (length as u16).wrapping_add(random.pick(&[0, 0, 1, 65535]));
    let other = random.pick(&NUMBERS);
    let number = random.pick(&[near, other]).to_be_bytes();
    let total = random.byte() & 15;
    let this = (random.byte() % (total + 2)) & 15;
    let numbers = [total << 4 | this];
    match first & 7 {
        1 => unit(first, &[&sidx, &sdur, &number, &data]),
        2 => unit(first, &[&numbers, &sdur, &sidx, &number, &data]),
        3 | 4 => unit(first, &[&numbers, &sdur, &data]),
        5 => unit(first, &[&sidx, &data]),
        _ => unit(first, &[&data]),
    }
}

/// Damages one payload in one way.
pub fn damage(payload: &mut Vec<u8>, random: &mut Random) {
    if payload.is_empty() {
        return;
    }
    match random.below(6) {
        0 => {
            let place = random.below(payload.len());
            payload[place] ^= 1 << random.below(8);
        }
        1 => payload.truncate(random.below(payload.len())),
        2 => change_len(payload, random),
        3 => change_byte(payload, random),
        4 => payload[0] ^= random.byte() & 0x78,
        _ => {
            let length = random.between(1, 4);
            payload.extend(random.bytes(length));
        }
    }
}

fn change_len(payload: &mut [u8], random: &mut Random) {
    if let [_, high, low, ..] = payload {
        let len = u16::from_be_bytes([*high, *low]);
        let near = random.pick(&[1, 65535, 65532]);
        let other = random.pick(&[0, 1, 2, 3, 4, 6, 7, 8, 9, 10, 65535]);
        let len = random.pick(&[len.wrapping_add(near), other]);
        [*high, *low] = len.to_be_bytes();
    }
}

/// Changes TYPE, TOTAL/THIS, SDUR, SIDX, TLEN, SLEN or a first byte of data a little.
fn change_byte(payload: &mut [u8], random: &mut Random) {
    let places: [usize; 10] = [0, 3, 3, 4, 6, 7, 8, 9, 10, 11];
    let place = random.pick(&places).min(payload.len() - 1);
    let by = random.pick(&[1, 255, 2, 16, 240, 128]);
    payload[place] = payload[place].wrapping_add(by);
}
