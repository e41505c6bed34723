//! A sample whose parts are being joined.

use crate::unit::{Head, Part, Text};
use crate::{Facts, LONGEST_SAMPLE};
use std::collections::BTreeMap;

#[derive(Debug, Clone, PartialEq, Eq)]
pub struct Sample {
    total: u8,
    sdur: u32,
    /// Told by the first string part.
    text: Option<Text>,
    /// The length of all kept data.
    size: usize,
    /// The kept parts by THIS.
    parts: BTreeMap<u8, Kept>,
}

#[derive(Debug, Clone, PartialEq, Eq)]
struct Kept {
    head: Head,
    data: Vec<u8>,
}

impl Sample {
    /// Opens a sample with its first part.
    pub fn begin(part: &Part<'_>) -> Result<Sample, u8> {
        let mut sample = Sample {
            total: part.head.total,
            sdur: part.head.sdur,
            text: None,
            size: 0,
            parts: BTreeMap::new(),
        };
        sample.add(part)?;
        Ok(sample)
    }

    /// Whether exactly this part is kept.
    pub fn repeats(&self, part: &Part<'_>) -> bool {
        let kept = self.parts.get(&part.this);
        kept.is_some_and(|kept| kept.head == part.head && kept.data == part.data)
    }

    /// Keeps a part that is no repeat.
    pub fn add(&mut self, part: &Part<'_>) -> Result<(), u8> {
        if self.parts.contains_key(&part.this) || !self.agrees(&part.head) {
            return Err(7);
        }
        let text = self.text.or(part.head.text);
        let size = self.size + part.data.len();
        let slen = text.map_or(LONGEST_SAMPLE, |text| text.slen);
        if slen > LONGEST_SAMPLE || size > slen {
            return Err(5);
        }
        self.text = text;
        self.size = size;
        let kept = Kept {
            head: part.head,
            data: part.data.to_vec(),
        };
        self.parts.insert(part.this, kept);
        Ok(())
    }

    fn agrees(&self, head: &Head) -> bool {
        let texts_agree = match (self.text, head.text) {
            (Some(ours), Some(theirs)) => ours == theirs,
            _ => true,
        };
        self.total == head.total && self.sdur == head.sdur && texts_agree
    }

    /// The count of parts still missing.
    pub fn missing(&self) -> usize {
        usize::from(self.total) - self.parts.len()
    }

    /// Puts the complete sample at the front of the output, unless it is spoiled.
    pub fn join(&self, time: u32, out: &mut [u8]) -> Option<Facts> {
        let text = self.text.filter(|text| text.slen == self.size)?;
        if !self.in_order() {
            return None;
        }
        let (mut string, mut end) = (0, 0);
        for kept in self.parts.values() {
            let start = end;
            end += kept.data.len();
            out[start..end].copy_from_slice(&kept.data);
            if kept.head.kind == 2 {
                string = end;
            }
        }
        Some(Facts {
            time,
            u: text.u,
            sidx: text.sidx,
            sdur: self.sdur,
            string,
            sample: end,
        })
    }

    /// Whether the TYPEs are one or more 2, then nothing or one 3 and any number of 4.
    fn in_order(&self) -> bool {
        let mut before = None;
        for kept in self.parts.values() {
            let kind = kept.head.kind;
            let follows = match before {
                None => kind == 2,
                Some(2) => kind != 4,
                Some(_) => kind == 4,
            };
            if !follows {
                return false;
            }
            before = Some(kind);
        }
        true
    }
}
