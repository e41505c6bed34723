//! A caption relay made for speed alone: the rules of document 01 with requests 1, 2 and 3 of
//! document 02, and no proof, to see what the proof costs.
//!
//! Places, times and descriptions stand in flat tables, what can be counted is kept as a count, a
//! part that completes its sample goes straight to the output, and no call allocates. An answer is
//! written once, where the caller wants it: what passes between functions fits in registers.
//! Refusals are the numbers of the rules. A running time that is not known is `None`.

mod book;
mod desk;
mod place;
mod string;
mod unit;
mod window;

use desk::Desk;
use place::{Joined, Place};
use string::is_well_formed;
use unit::{Part, Whole};

/// The longest sample, and the least length of a lent output.
pub const LONGEST_SAMPLE: usize = 1024;

/// The longest description.
pub const LONGEST_DESCRIPTION: usize = 256;

/// The open samples every desk may have whatever the others do.
const OWN: usize = 2;

/// The open samples no desk may go beyond.
const MOST_OPEN: usize = 6;

/// The front of a lent output.
type Output = [u8; LONGEST_SAMPLE];

/// A relay of one to eight desks.
#[derive(Clone)]
pub struct Rival {
    desks: Vec<Desk>,
    /// Four places a desk.
    places: Vec<Place>,
    /// A bit for each free place.
    free: u32,
    /// The sum, over all desks, of open samples beyond two.
    common: usize,
}

/// What one call of [`Rival::receive`] answers.
#[derive(Debug, Clone, Copy, PartialEq, Eq)]
pub struct Answer {
    pub used: usize,
    pub next: Option<u32>,
    pub outcome: Outcome,
}

/// What became of a unit.
#[derive(Debug, Clone, Copy, PartialEq, Eq)]
pub enum Outcome {
    End,
    Whole(Facts),
    Joined(Facts),
    /// With the count of parts still missing.
    Kept(usize),
    Repeat,
    Described,
    /// With the TYPE.
    Skipped(u8),
    /// With the refusal's number.
    Refused(u8),
}

/// The facts of a sample that stands at the front of the output.
#[derive(Debug, Clone, Copy, PartialEq, Eq)]
pub struct Facts {
    pub time: u32,
    pub u: u8,
    pub sidx: u8,
    pub sdur: u32,
    pub string: usize,
    pub sample: usize,
}

/// What became of a part that is not refused.
enum Step {
    Kept(u8),
    Repeat,
    Joined(Joined),
}

fn told(used: usize, next: Option<u32>, outcome: Outcome) -> Answer {
    Answer {
        used,
        next,
        outcome,
    }
}

fn refused(used: usize, next: Option<u32>, number: u8) -> Answer {
    told(used, next, Outcome::Refused(number))
}

impl Rival {
    /// A fresh relay of `n` desks.
    pub fn set_up(n: usize) -> Result<Rival, u8> {
        if !(1..=8).contains(&n) {
            return Err(1);
        }
        Ok(Rival {
            desks: vec![Desk::default(); n],
            places: vec![Place::default(); 4 * n],
            free: u32::MAX >> (32 - 4 * n),
            common: 0,
        })
    }

    /// Reads the first unit of `rest`.
    pub fn receive(
        &mut self,
        desk: usize,
        time: Option<u32>,
        rest: &[u8],
        out: &mut [u8],
    ) -> Answer {
        let stays = |used, outcome| told(used, time, outcome);
        if desk >= self.desks.len() {
            return stays(0, Outcome::Refused(1));
        }
        let Some(out) = out.first_chunk_mut() else {
            return stays(0, Outcome::Refused(2));
        };
        if rest.is_empty() {
            return stays(0, Outcome::End);
        }
        let Some(unit) = unit::first(rest) else {
            return stays(rest.len(), Outcome::Refused(3));
        };
        match unit[0] & 7 {
            1 => self.take_whole(desk, time, unit, out),
            2..=4 => self.take_part(desk, time, unit, out),
            5 => stays(unit.len(), self.describe(desk, unit)),
            kind => stays(unit.len(), Outcome::Skipped(kind)),
        }
    }

    /// Frees the open sample of that name and marks its time finished.
    pub fn give_up(&mut self, desk: usize, time: u32) -> Result<(), u8> {
        if desk >= self.desks.len() {
            return Err(1);
        }
        let slot = self.desks[desk].open_at(time).ok_or(11)?;
        self.finish(desk, slot, time);
        Ok(())
    }

    /// The description that `index` names at the desk, as a part of its store or of the book; empty
    /// where there is none.
    pub fn look<'a>(&'a self, desk: usize, index: usize, book: &'a [u8]) -> &'a [u8] {
        let Some(desk) = self.desks.get(desk) else {
            return &[];
        };
        match index {
            0..=127 => desk.window.get(index as u8),
            128..=254 => book::find(book, index as u8),
            _ => &[],
        }
    }

    /// The counts that are kept: each desk's open samples, 0 for desks that are not there, and the
    /// common use.
    pub fn counts(&self) -> ([usize; 8], usize) {
        let mut open = [0; 8];
        for (open, desk) in open.iter_mut().zip(&self.desks) {
            *open = desk.count();
        }
        (open, self.common)
    }

    fn take_whole(
        &mut self,
        desk: usize,
        time: Option<u32>,
        unit: &[u8],
        out: &mut Output,
    ) -> Answer {
        let used = unit.len();
        let Some(whole) = unit::whole(unit) else {
            return refused(used, time, 4);
        };
        if !is_well_formed(whole.u, &whole.data[..whole.tlen]) {
            return refused(used, time, 17);
        }
        let Some(time) = time else {
            return refused(used, None, 18);
        };
        let next = unit::later(time, whole.sdur);
        if let Err(number) = self.whole(desk, time, &whole, out) {
            return refused(used, next, number);
        }
        let facts = Facts {
            time,
            u: whole.u,
            sidx: whole.sidx,
            sdur: whole.sdur,
            string: whole.tlen,
            sample: whole.data.len(),
        };
        told(used, next, Outcome::Whole(facts))
    }

    #[inline(always)]
    fn whole(
        &mut self,
        desk: usize,
        time: u32,
        whole: &Whole<'_>,
        out: &mut Output,
    ) -> Result<(), u8> {
        let desk = &mut self.desks[desk];
        if desk.is_finished(time) {
            return Err(6);
        }
        if desk.open_at(time).is_some() {
            return Err(7);
        }
        let front = out.get_mut(..whole.data.len()).ok_or(5)?;
        front.copy_from_slice(whole.data);
        desk.mark(time);
        Ok(())
    }

    fn describe(&mut self, desk: usize, unit: &[u8]) -> Outcome {
        let Some((sidx, data)) = unit::description(unit) else {
            return Outcome::Refused(4);
        };
        match self.desks[desk].window.describe(sidx, data) {
            Ok(true) => Outcome::Described,
            Ok(false) => Outcome::Repeat,
            Err(number) => Outcome::Refused(number),
        }
    }

    fn take_part(
        &mut self,
        desk: usize,
        time: Option<u32>,
        unit: &[u8],
        out: &mut Output,
    ) -> Answer {
        let used = unit.len();
        let Some(part) = unit::part(unit) else {
            return refused(used, time, 4);
        };
        if part.is_string() && !is_well_formed(part.text.u(), part.data) {
            return refused(used, time, 17);
        }
        let Some(time) = time else {
            return refused(used, None, 18);
        };
        let next = part.next(time);
        let joined = match self.part(desk, time, &part, out) {
            Ok(Step::Joined(joined)) => joined,
            Ok(Step::Kept(missing)) => {
                return told(used, next, Outcome::Kept(usize::from(missing)))
            }
            Ok(Step::Repeat) => return told(used, next, Outcome::Repeat),
            Err(number) => return refused(used, next, number),
        };
        let facts = joined.facts(time, part.sdur);
        told(used, next, Outcome::Joined(facts))
    }

    #[inline(always)]
    fn part(
        &mut self,
        desk: usize,
        time: u32,
        part: &Part<'_>,
        out: &mut Output,
    ) -> Result<Step, u8> {
        let held = &self.desks[desk];
        if held.is_finished(time) {
            return Err(6);
        }
        let Some(slot) = held.open_at(time) else {
            return self.open(desk, time, part, out);
        };
        let place = &mut self.places[held.place(slot)];
        if place.holds(part)? {
            return Ok(Step::Repeat);
        }
        place.has_room(part)?;
        if !place.is_completed_by(part) {
            return Ok(Step::Kept(place.keep(part)));
        }
        let joined = place.join(part, out);
        self.finish(desk, slot, time);
        joined.map(Step::Joined).ok_or(10)
    }

    /// Takes the first part of a sample.
    fn open(
        &mut self,
        desk: usize,
        time: u32,
        part: &Part<'_>,
        out: &mut Output,
    ) -> Result<Step, u8> {
        if part.data.len() > part.room() || part.room() > LONGEST_SAMPLE {
            return Err(5);
        }
        self.share(desk)?;
        if part.total == 1 {
            self.desks[desk].mark(time);
            return place::alone(part, out).map(Step::Joined).ok_or(10);
        }
        let at = self.free.trailing_zeros() as usize;
        self.free &= self.free - 1;
        self.common += usize::from(self.desks[desk].count() >= OWN);
        self.desks[desk].open(time, at);
        Ok(Step::Kept(self.places[at].begin(part)))
    }

    /// Whether the desk may open one more sample.
    fn share(&self, desk: usize) -> Result<(), u8> {
        match self.desks[desk].count() {
            0..OWN => Ok(()),
            MOST_OPEN.. => Err(8),
            _ if self.common >= 2 * self.desks.len() => Err(9),
            _ => Ok(()),
        }
    }

    /// Frees the place of an open sample and marks its time finished.
    fn finish(&mut self, desk: usize, slot: usize, time: u32) {
        let desk = &mut self.desks[desk];
        self.free |= 1 << desk.close(slot);
        self.common -= usize::from(desk.count() >= OWN);
        desk.mark(time);
    }
}
