//! What one desk holds.

use crate::window::Window;

/// How many finished times a desk remembers.
const REMEMBERED: usize = 16;

/// Room for the open samples: no desk has more than six, and any slot that a bit names is there.
const SLOTS: usize = 8;

/// What every unit asks for stands in front, in two lines of the cache.
#[derive(Clone, Default)]
#[repr(C, align(64))]
pub struct Desk {
    /// Finished times, the oldest at `oldest`. Until sixteen are there, the first one fills the room
    /// of those that are missing, so that all sixteen are compared and none is no time.
    finished: [u32; REMEMBERED],
    open: [u32; SLOTS],
    places: [u8; SLOTS],
    /// A bit for each slot in use.
    used: u8,
    count: u8,
    oldest: u8,
    any_finished: bool,
    pub window: Window,
}

impl Desk {
    pub fn is_finished(&self, time: u32) -> bool {
        let found = self
            .finished
            .iter()
            .fold(false, |found, t| found | (*t == time));
        found & self.any_finished
    }

    pub fn mark(&mut self, time: u32) {
        if !self.any_finished {
            self.any_finished = true;
            self.finished = [time; REMEMBERED];
        }
        let oldest = usize::from(self.oldest) % REMEMBERED;
        self.finished[oldest] = time;
        self.oldest = self.oldest.wrapping_add(1);
    }

    /// The slot of the open sample of that time.
    pub fn open_at(&self, time: u32) -> Option<usize> {
        let mut slots = self.used;
        while slots != 0 {
            let slot = slots.trailing_zeros() as usize;
            if self.open[slot] == time {
                return Some(slot);
            }
            slots &= slots - 1;
        }
        None
    }

    /// How many samples are open.
    pub fn count(&self) -> usize {
        usize::from(self.count)
    }

    pub fn place(&self, slot: usize) -> usize {
        usize::from(self.places[slot])
    }

    pub fn open(&mut self, time: u32, place: usize) {
        let slot = self.used.trailing_ones() as usize;
        self.open[slot] = time;
        self.places[slot] = place as u8;
        self.used |= 1 << slot;
        self.count += 1;
    }

    /// Frees a slot and answers its place.
    pub fn close(&mut self, slot: usize) -> usize {
        self.used &= !(1 << slot);
        self.count -= 1;
        self.place(slot)
    }
}
