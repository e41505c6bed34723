//! A second caption relay in plain Rust, written from the rules alone: document
//! 01 with requests 1, 2 and 3 of document 02.
//!
//! It keeps what it holds in maps and vectors and borrows no memory from its
//! caller. Refusals are the numbers of the rules, 1 to 18. A running time that
//! is not known is `None`.

mod boxes;
mod desk;
mod lent;
mod sample;
mod style;
mod unit;
mod window;
mod write;

use desk::Desk;
use sample::Sample;
use unit::{Part, Unit};

pub use boxes::{step, Step};
pub use lent::Lent;
pub use style::check;
pub use write::{describe, is_well_formed, write};

/// The longest sample, and the least length of a lent output.
pub const LONGEST_SAMPLE: usize = 1024;

/// The longest description.
pub const LONGEST_DESCRIPTION: usize = 256;

/// The most desks of a relay.
pub const MOST_DESKS: usize = 8;

/// The open samples every desk may have whatever the others do.
const OWN: usize = 2;

/// The open samples no desk may go beyond.
const MOST_OPEN: usize = 6;

/// A relay of one to eight desks.
#[derive(Debug, Clone, PartialEq, Eq)]
pub struct Second {
    desks: Vec<Desk>,
}

/// What one call of [`Second::receive`] answers.
#[derive(Debug, Clone, PartialEq, Eq)]
pub struct Answer {
    pub used: usize,
    pub next: Option<u32>,
    pub outcome: Outcome,
}

/// What became of a unit.
#[derive(Debug, Clone, PartialEq, Eq)]
pub enum Outcome {
    End,
    Whole(Facts),
    Joined(Facts),
    /// With the count of parts still missing.
    Kept(usize),
    Repeat,
    Described,
    /// With the TYPE.
    Skipped(u8),
    /// With the refusal's number.
    Refused(u8),
}

/// The facts of a sample that stands at the front of the output.
#[derive(Debug, Clone, PartialEq, Eq)]
pub struct Facts {
    pub time: u32,
    pub u: u8,
    pub sidx: u8,
    pub sdur: u32,
    pub string: usize,
    pub sample: usize,
}

/// How many samples are open.
#[derive(Debug, Clone, Copy, PartialEq, Eq)]
pub struct Counts {
    /// Each desk's; 0 for desks that are not there.
    pub open: [usize; MOST_DESKS],
    /// The common use: the sum, over all desks, of those beyond two.
    pub common: usize,
}

impl Second {
    /// A fresh relay of `n` desks.
    pub fn set_up(n: usize) -> Result<Second, u8> {
        if !(1..=MOST_DESKS).contains(&n) {
            return Err(1);
        }
        let desks = vec![Desk::default(); n];
        Ok(Second { desks })
    }

    /// Reads the first unit of `rest`.
    pub fn receive(
        &mut self,
        desk: usize,
        time: Option<u32>,
        rest: &[u8],
        out: &mut [u8],
    ) -> Answer {
        let stays = |used, outcome| Answer {
            used,
            next: time,
            outcome,
        };
        if desk >= self.desks.len() {
            return stays(0, Outcome::Refused(1));
        }
        if out.len() < LONGEST_SAMPLE {
            return stays(0, Outcome::Refused(2));
        }
        if rest.is_empty() {
            return stays(0, Outcome::End);
        }
        let Some(bytes) = unit::first(rest) else {
            return stays(rest.len(), Outcome::Refused(3));
        };
        match Unit::read(bytes) {
            Err(number) => stays(bytes.len(), Outcome::Refused(number)),
            Ok(unit) => Answer {
                used: bytes.len(),
                next: unit.next(time),
                outcome: self
                    .take(desk, time, unit, out)
                    .unwrap_or_else(Outcome::Refused),
            },
        }
    }

    /// Frees the open sample of that name and marks its time finished.
    pub fn give_up(&mut self, desk: usize, time: u32) -> Result<(), u8> {
        let desk = self.desks.get_mut(desk).ok_or(1)?;
        desk.finish(time).ok_or(11)?;
        Ok(())
    }

    /// The description that `index` names at the desk; empty where there is none.
    pub fn look(&self, desk: usize, index: usize, book: &[u8]) -> Vec<u8> {
        let Some(desk) = self.desks.get(desk) else {
            return Vec::new();
        };
        let found = match u8::try_from(index) {
            Ok(sidx @ 0..=127) => desk.window.get(sidx),
            Ok(sidx @ 128..=254) => style::find(book, sidx),
            _ => None,
        };
        found.unwrap_or_default().to_vec()
    }

    /// Counts the open samples in the desks' maps.
    pub fn counts(&self) -> Counts {
        let mut open = [0; MOST_DESKS];
        for (open, desk) in open.iter_mut().zip(&self.desks) {
            *open = desk.open.len();
        }
        let common = self.common();
        Counts { open, common }
    }

    fn take(
        &mut self,
        desk: usize,
        time: Option<u32>,
        unit: Unit<'_>,
        out: &mut [u8],
    ) -> Result<Outcome, u8> {
        let known = time.ok_or(18);
        match unit {
            Unit::Skipped(kind) => Ok(Outcome::Skipped(kind)),
            Unit::Description { sidx, data } => self.desks[desk].window.describe(sidx, data),
            Unit::Whole(whole) => self.desks[desk].whole(known?, whole, out),
            Unit::Part(part) => self.part(desk, known?, part, out),
        }
    }

    fn part(
        &mut self,
        desk: usize,
        time: u32,
        part: Part<'_>,
        out: &mut [u8],
    ) -> Result<Outcome, u8> {
        self.desks[desk].in_time(time)?;
        if let Some(sample) = self.desks[desk].open.get_mut(&time) {
            if sample.repeats(&part) {
                return Ok(Outcome::Repeat);
            }
            sample.add(&part)?;
        } else {
            let sample = Sample::begin(&part)?;
            self.share(desk)?;
            self.desks[desk].open.insert(time, sample);
        }
        self.desks[desk].hand_out(time, out)
    }

    /// Whether the desk may open one more sample.
    fn share(&self, desk: usize) -> Result<(), u8> {
        let open = self.desks[desk].open.len();
        if open < OWN {
            return Ok(());
        }
        if open >= MOST_OPEN {
            return Err(8);
        }
        if self.common() >= 2 * self.desks.len() {
            return Err(9);
        }
        Ok(())
    }

    fn common(&self) -> usize {
        let beyond = |desk: &Desk| desk.open.len().saturating_sub(OWN);
        self.desks.iter().map(beyond).sum()
    }
}
