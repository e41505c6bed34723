//! What one desk holds.

use crate::sample::Sample;
use crate::unit::Whole;
use crate::window::Window;
use crate::{Facts, Outcome, LONGEST_SAMPLE};
use std::collections::{BTreeMap, VecDeque};

/// How many finished times a desk remembers.
const REMEMBERED: usize = 16;

#[derive(Debug, Clone, Default, PartialEq, Eq)]
pub struct Desk {
    /// The open samples by running time.
    pub open: BTreeMap<u32, Sample>,
    pub window: Window,
    /// Finished times, the oldest first.
    finished: VecDeque<u32>,
}

impl Desk {
    /// Refusal 6 for a time that is finished.
    pub fn in_time(&self, time: u32) -> Result<(), u8> {
        if self.finished.contains(&time) {
            return Err(6);
        }
        Ok(())
    }

    /// Takes a TYPE 1 unit.
    pub fn whole(&mut self, time: u32, whole: Whole<'_>, out: &mut [u8]) -> Result<Outcome, u8> {
        self.in_time(time)?;
        if self.open.contains_key(&time) {
            return Err(7);
        }
        let sample = whole.data.len();
        if sample > LONGEST_SAMPLE {
            return Err(5);
        }
        out[..sample].copy_from_slice(whole.data);
        self.mark(time);
        Ok(Outcome::Whole(Facts {
            time,
            u: whole.u,
            sidx: whole.sidx,
            sdur: whole.sdur,
            string: whole.tlen,
            sample,
        }))
    }

    /// Answers for the open sample that just got a part, and hands it out if none is missing.
    pub fn hand_out(&mut self, time: u32, out: &mut [u8]) -> Result<Outcome, u8> {
        let missing = self.open[&time].missing();
        if missing > 0 {
            return Ok(Outcome::Kept(missing));
        }
        let joined = self.finish(time).and_then(|sample| sample.join(time, out));
        joined.map(Outcome::Joined).ok_or(10)
    }

    /// Takes the open sample out and marks its time finished.
    pub fn finish(&mut self, time: u32) -> Option<Sample> {
        let sample = self.open.remove(&time)?;
        self.mark(time);
        Some(sample)
    }

    fn mark(&mut self, time: u32) {
        if self.finished.len() == REMEMBERED {
            self.finished.pop_front();
        }
        self.finished.push_back(time);
    }
}
