//! Reading one unit.

use crate::LONGEST_SAMPLE;

/// A whole sample, TYPE 1.
pub struct Whole<'a> {
    pub u: u8,
    pub sidx: u8,
    pub sdur: u32,
    pub tlen: usize,
    pub data: &'a [u8],
}

/// A part of a sample, TYPE 2 to 4.
pub struct Part<'a> {
    pub kind: u8,
    pub total: u8,
    pub this: u8,
    pub sdur: u32,
    /// What string parts alone tell; 0 for the others.
    pub text: Text,
    pub data: &'a [u8],
}

/// U, SIDX and SLEN in one number, since they are only ever compared together.
#[derive(Clone, Copy, Default, PartialEq, Eq)]
pub struct Text(u32);

impl Text {
    fn new(u: u8, sidx: u8, slen: u16) -> Text {
        Text(u32::from(u) << 24 | u32::from(sidx) << 16 | u32::from(slen))
    }

    pub fn u(self) -> u8 {
        (self.0 >> 24) as u8
    }

    pub fn sidx(self) -> u8 {
        (self.0 >> 16) as u8
    }

    pub fn slen(self) -> usize {
        usize::from(self.0 as u16)
    }
}

impl Part<'_> {
    pub fn is_string(&self) -> bool {
        self.kind == 2
    }

    /// The running time behind the part, which only the last one moves.
    pub fn next(&self, time: u32) -> Option<u32> {
        if self.this == self.total {
            later(time, self.sdur)
        } else {
            Some(time)
        }
    }

    /// The most bytes of its sample, as far as this part tells.
    pub fn room(&self) -> usize {
        if self.is_string() {
            self.text.slen()
        } else {
            LONGEST_SAMPLE
        }
    }
}

/// The bytes of the first unit, `None` where no unit can be told apart.
#[inline(always)]
pub fn first(rest: &[u8]) -> Option<&[u8]> {
    let [_, high, low, ..] = rest else {
        return None;
    };
    let len = usize::from(u16::from_be_bytes([*high, *low]));
    if len < 2 {
        return None;
    }
    rest.get(..1 + len)
}

fn sdur(bytes: [u8; 3]) -> u32 {
    let [a, b, c] = bytes;
    u32::from_be_bytes([0, a, b, c])
}

/// The running time behind what lasts so long; SDUR 0 is a duration that is not known yet.
pub fn later(time: u32, sdur: u32) -> Option<u32> {
    (sdur != 0).then_some(time.wrapping_add(sdur))
}

/// A TYPE 1 unit whose fields are in range.
#[inline(always)]
pub fn whole(unit: &[u8]) -> Option<Whole<'_>> {
    let (&[first, _, _, sidx, a, b, c, high, low], data) = unit.split_first_chunk()?;
    let tlen = usize::from(u16::from_be_bytes([high, low]));
    (tlen <= data.len() && sidx != 255).then_some(Whole {
        u: first >> 7,
        sidx,
        sdur: sdur([a, b, c]),
        tlen,
        data,
    })
}

/// A TYPE 2, 3 or 4 unit whose fields are in range.
#[inline(always)]
pub fn part(unit: &[u8]) -> Option<Part<'_>> {
    let (&[first, _, _, numbers, a, b, c], mut data) = unit.split_first_chunk()?;
    let (kind, total, this) = (first & 7, numbers >> 4, numbers & 15);
    let mut text = Text::default();
    if kind == 2 {
        let (&[sidx, high, low], after) = data.split_first_chunk()?;
        if sidx == 255 {
            return None;
        }
        text = Text::new(first >> 7, sidx, u16::from_be_bytes([high, low]));
        data = after;
    }
    (this != 0 && this <= total && !data.is_empty()).then_some(Part {
        kind,
        total,
        this,
        sdur: sdur([a, b, c]),
        text,
        data,
    })
}

/// SIDX and data of a TYPE 5 unit whose fields are in range.
#[inline(always)]
pub fn description(unit: &[u8]) -> Option<(u8, &[u8])> {
    let (&[_, _, _, sidx], data) = unit.split_first_chunk()?;
    (sidx <= 127 && !data.is_empty()).then_some((sidx, data))
}
