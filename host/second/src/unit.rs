//! Reading one unit.

use crate::is_well_formed;

/// A unit whose fields are in range and whose string is well-formed.
pub enum Unit<'a> {
    Whole(Whole<'a>),
    Part(Part<'a>),
    Description { sidx: u8, data: &'a [u8] },
    Skipped(u8),
}

/// A whole sample, TYPE 1.
pub struct Whole<'a> {
    pub u: u8,
    pub sidx: u8,
    pub sdur: u32,
    pub tlen: usize,
    pub data: &'a [u8],
}

/// A part of a sample, TYPE 2 to 4.
pub struct Part<'a> {
    pub this: u8,
    pub head: Head,
    pub data: &'a [u8],
}

/// What a part says besides THIS and its data.
#[derive(Debug, Clone, Copy, PartialEq, Eq)]
pub struct Head {
    pub kind: u8,
    pub total: u8,
    pub sdur: u32,
    /// Told by TYPE 2 alone.
    pub text: Option<Text>,
}

/// What string parts alone tell.
#[derive(Debug, Clone, Copy, PartialEq, Eq)]
pub struct Text {
    pub u: u8,
    pub sidx: u8,
    pub slen: usize,
}

/// The bytes of the first unit, `None` where no unit can be told apart.
pub fn first(rest: &[u8]) -> Option<&[u8]> {
    let len = rest.get(1..3).map(number)?;
    if len < 2 {
        return None;
    }
    rest.get(..1 + len as usize)
}

/// A big-endian number of up to four bytes.
fn number(bytes: &[u8]) -> u32 {
    bytes
        .iter()
        .fold(0, |sum, &byte| sum << 8 | u32::from(byte))
}

impl<'a> Unit<'a> {
    /// Reads the bytes of one unit, or gives refusal 4 or, behind it, 17.
    pub fn read(bytes: &'a [u8]) -> Result<Unit<'a>, u8> {
        let unit = Unit::fields(bytes).ok_or(4)?;
        match unit.string() {
            Some((u, string)) if !is_well_formed(u.into(), string) => Err(17),
            _ => Ok(unit),
        }
    }

    /// The unit before its string is looked at; `None` where a field is out of range.
    fn fields(bytes: &'a [u8]) -> Option<Unit<'a>> {
        match bytes[0] & 7 {
            1 => whole(bytes).map(Unit::Whole),
            kind @ 2..=4 => part(kind, bytes).map(Unit::Part),
            5 => description(bytes),
            kind => Some(Unit::Skipped(kind)),
        }
    }

    /// U and the bytes that have to be a string by themselves, where the unit has such.
    fn string(&self) -> Option<(u8, &'a [u8])> {
        match self {
            Unit::Whole(whole) => Some((whole.u, &whole.data[..whole.tlen])),
            Unit::Part(part) => part.head.text.map(|text| (text.u, part.data)),
            _ => None,
        }
    }

    /// The running time behind the unit. Where it is not known, no unit makes it known again.
    pub fn next(&self, time: Option<u32>) -> Option<u32> {
        let time = time?;
        match self.lasts() {
            Some(0) => None,
            Some(sdur) => Some(time.wrapping_add(sdur)),
            None => Some(time),
        }
    }

    /// SDUR of a unit that moves the running time; 0 stands for a duration that is not known yet.
    fn lasts(&self) -> Option<u32> {
        match self {
            Unit::Whole(whole) => Some(whole.sdur),
            Unit::Part(part) if part.this == part.head.total => Some(part.head.sdur),
            _ => None,
        }
    }
}

fn whole(bytes: &[u8]) -> Option<Whole<'_>> {
    let data = bytes.get(9..)?;
    let whole = Whole {
        u: bytes[0] >> 7,
        sidx: bytes[3],
        sdur: number(&bytes[4..7]),
        tlen: number(&bytes[7..9]) as usize,
        data,
    };
    (whole.tlen <= data.len() && whole.sidx != 255).then_some(whole)
}

fn part(kind: u8, bytes: &[u8]) -> Option<Part<'_>> {
    let header = if kind == 2 { 10 } else { 7 };
    let data = bytes.get(header..).filter(|data| !data.is_empty())?;
    let (total, this) = (bytes[3] >> 4, bytes[3] & 15);
    let text = (kind == 2).then(|| Text {
        u: bytes[0] >> 7,
        sidx: bytes[7],
        slen: number(&bytes[8..10]) as usize,
    });
    let reserved = text.is_some_and(|text| text.sidx == 255);
    if this == 0 || this > total || reserved {
        return None;
    }
    let sdur = number(&bytes[4..7]);
    let head = Head {
        kind,
        total,
        sdur,
        text,
    };
    Some(Part { this, head, data })
}

fn description(bytes: &[u8]) -> Option<Unit<'_>> {
    let data = bytes.get(4..).filter(|data| !data.is_empty())?;
    let sidx = bytes[3];
    (sidx <= 127).then_some(Unit::Description { sidx, data })
}
