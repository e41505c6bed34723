//! The place of one open sample.

use crate::unit::{Part, Text};
use crate::{Facts, Output, LONGEST_SAMPLE};

/// The most parts of a sample.
const MOST_PARTS: usize = 15;

/// The kept parts of an open sample. Sets of parts have bit THIS - 1 for each.
#[derive(Clone)]
pub struct Place {
    total: u8,
    sdur: u32,
    /// Told by the string parts; nothing where none is kept.
    text: Text,
    kept: u16,
    /// The kept parts of TYPE 2, and those of TYPE 3.
    strings: u16,
    thirds: u16,
    /// The length of all kept data, and of that of the string parts.
    size: usize,
    string: usize,
    /// Whether the data stands in the order of THIS.
    in_order: bool,
    starts: [u16; MOST_PARTS],
    lengths: [u16; MOST_PARTS],
    /// The data of the kept parts, as they came.
    data: [u8; LONGEST_SAMPLE],
}

impl Default for Place {
    fn default() -> Place {
        Place {
            total: 0,
            sdur: 0,
            text: Text::default(),
            kept: 0,
            strings: 0,
            thirds: 0,
            size: 0,
            string: 0,
            in_order: true,
            starts: [0; MOST_PARTS],
            lengths: [0; MOST_PARTS],
            data: [0; LONGEST_SAMPLE],
        }
    }
}

/// The set of one part.
fn bit(part: &Part<'_>) -> u16 {
    1 << (part.this - 1)
}

/// Whether these are the TYPEs of a sample: one or more 2, then nothing or one 3 and any number of 4.
/// As all parts are there, what is neither 2 nor 3 is 4.
fn are_in_order(all: u16, strings: u16, thirds: u16) -> bool {
    let strings_lead = strings & 1 == 1 && strings & (strings + 1) == 0;
    strings_lead && (strings == all || thirds == strings + 1)
}

/// What is told of a sample that was put at the front of the output.
#[derive(Clone, Copy)]
pub struct Joined {
    text: Text,
    string: u16,
    sample: u16,
}

impl Joined {
    pub fn facts(self, time: u32, sdur: u32) -> Facts {
        Facts {
            time,
            u: self.text.u(),
            sidx: self.text.sidx(),
            sdur,
            string: usize::from(self.string),
            sample: usize::from(self.sample),
        }
    }
}

/// The sample of one part alone, unless it is spoiled.
pub fn alone(part: &Part<'_>, out: &mut Output) -> Option<Joined> {
    let sample = part.data.len();
    if !part.is_string() || part.text.slen() != sample {
        return None;
    }
    out[..sample].copy_from_slice(part.data);
    Some(Joined {
        text: part.text,
        string: sample as u16,
        sample: sample as u16,
    })
}

impl Place {
    /// Keeps the first part; answers how many are missing. The data of an earlier sample stays.
    pub fn begin(&mut self, part: &Part<'_>) -> u8 {
        self.total = part.total;
        self.sdur = part.sdur;
        self.kept = 0;
        self.strings = 0;
        self.thirds = 0;
        self.size = 0;
        self.string = 0;
        self.in_order = true;
        self.keep(part)
    }

    /// Keeps a part that agrees, is not held and has room; answers how many are missing.
    #[inline(always)]
    pub fn keep(&mut self, part: &Part<'_>) -> u8 {
        let (start, end) = (self.size, self.size + part.data.len());
        let at = usize::from(part.this - 1);
        self.data[start..end].copy_from_slice(part.data);
        self.starts[at] = start as u16;
        self.lengths[at] = part.data.len() as u16;
        self.in_order &= self.kept < bit(part);
        self.size = end;
        self.kept |= bit(part);
        if part.is_string() {
            self.strings |= bit(part);
            self.string += part.data.len();
            self.text = part.text;
        }
        if part.kind == 3 {
            self.thirds |= bit(part);
        }
        self.total - self.kept.count_ones() as u8
    }

    /// Whether exactly this part is kept; refusal 7 where it disagrees with what is kept.
    #[inline(always)]
    pub fn holds(&self, part: &Part<'_>) -> Result<bool, u8> {
        let tells_other = part.is_string() && self.strings != 0 && part.text != self.text;
        if part.total != self.total || part.sdur != self.sdur || tells_other {
            return Err(7);
        }
        if self.kept & bit(part) == 0 {
            return Ok(false);
        }
        let is_string = self.strings & bit(part) != 0;
        let is_third = self.thirds & bit(part) != 0;
        let same_kind = is_string == part.is_string() && is_third == (part.kind == 3);
        if same_kind && self.data_of(usize::from(part.this - 1)) == part.data {
            return Ok(true);
        }
        Err(7)
    }

    /// Refusal 5 for more data than the sample may have.
    pub fn has_room(&self, part: &Part<'_>) -> Result<(), u8> {
        let mut room = part.room();
        if self.strings != 0 {
            room = self.text.slen();
        }
        if room > LONGEST_SAMPLE || self.size + part.data.len() > room {
            return Err(5);
        }
        Ok(())
    }

    pub fn is_completed_by(&self, part: &Part<'_>) -> bool {
        self.kept | bit(part) == self.all()
    }

    fn all(&self) -> u16 {
        u16::MAX >> (16 - self.total)
    }

    fn data_of(&self, at: usize) -> &[u8] {
        let start = usize::from(self.starts[at]);
        &self.data[start..start + usize::from(self.lengths[at])]
    }

    /// Puts the sample that this part completes at the front of the output, unless it is spoiled.
    pub fn join(&self, part: &Part<'_>, out: &mut Output) -> Option<Joined> {
        let (mut strings, mut thirds) = (self.strings, self.thirds);
        let (mut text, mut string) = (self.text, self.string);
        if part.is_string() {
            strings |= bit(part);
            text = part.text;
            string += part.data.len();
        }
        if part.kind == 3 {
            thirds |= bit(part);
        }
        let sample = self.size + part.data.len();
        if !are_in_order(self.all(), strings, thirds) || text.slen() != sample {
            return None;
        }
        if self.in_order {
            self.lay_around(part, out);
        } else {
            self.lay_each(part, out);
        }
        Some(Joined {
            text,
            string: string as u16,
            sample: sample as u16,
        })
    }

    /// Lays down data that stands in order: what comes before the part, the part, and what follows.
    fn lay_around(&self, part: &Part<'_>, out: &mut Output) {
        let mut before = self.size;
        if part.this < self.total {
            before = usize::from(self.starts[usize::from(part.this)]);
        }
        let after = before + part.data.len();
        let end = self.size + part.data.len();
        out[..before].copy_from_slice(&self.data[..before]);
        out[before..after].copy_from_slice(part.data);
        out[after..end].copy_from_slice(&self.data[before..self.size]);
    }

    /// Lays down each part by itself.
    fn lay_each(&self, part: &Part<'_>, out: &mut Output) {
        let mut start = 0;
        for at in 0..usize::from(self.total) {
            let data = if at + 1 == usize::from(part.this) {
                part.data
            } else {
                self.data_of(at)
            };
            let end = start + data.len();
            out[start..end].copy_from_slice(data);
            start = end;
        }
    }
}
