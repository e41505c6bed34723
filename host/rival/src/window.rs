//! The in-band descriptions of one desk.

use crate::LONGEST_DESCRIPTION;

/// How many values the window has. Values that are held together differ modulo this, so a value has
/// its slot by its low bits.
const SLOTS: u8 = 64;

#[derive(Clone)]
pub struct Window {
    newest: Option<u8>,
    /// A bit for each slot that holds a value.
    held: u64,
    lengths: [u16; SLOTS as usize],
    store: [[u8; LONGEST_DESCRIPTION]; SLOTS as usize],
}

impl Default for Window {
    fn default() -> Window {
        Window {
            newest: None,
            held: 0,
            lengths: [0; SLOTS as usize],
            store: [[0; LONGEST_DESCRIPTION]; SLOTS as usize],
        }
    }
}

fn slot(sidx: u8) -> usize {
    usize::from(sidx % SLOTS)
}

/// How far `from` has to go up to reach `to`, modulo 128.
fn distance(from: u8, to: u8) -> u8 {
    to.wrapping_sub(from) % 128
}

/// The slots of the `count` values from `first` on, 1 to 64 of them.
fn slots(first: u8, count: u8) -> u64 {
    (u64::MAX >> (SLOTS - count)).rotate_left(u32::from(first % SLOTS))
}

impl Window {
    /// Takes a TYPE 5 unit; answers whether it is stored, and not a repeat.
    pub fn describe(&mut self, sidx: u8, data: &[u8]) -> Result<bool, u8> {
        if data.len() > LONGEST_DESCRIPTION {
            return Err(5);
        }
        let held = self.get(sidx);
        if !held.is_empty() {
            return if held == data { Ok(false) } else { Err(7) };
        }
        self.move_to(sidx);
        self.held |= 1 << slot(sidx);
        self.lengths[slot(sidx)] = data.len() as u16;
        self.store[slot(sidx)][..data.len()].copy_from_slice(data);
        Ok(true)
    }

    /// The description of a value; empty where it is not held.
    pub fn get(&self, sidx: u8) -> &[u8] {
        let is_near = |newest| distance(sidx, newest) < SLOTS;
        if self.held >> slot(sidx) & 1 == 0 || !self.newest.is_some_and(is_near) {
            return &[];
        }
        &self.store[slot(sidx)][..usize::from(self.lengths[slot(sidx)])]
    }

    /// Makes `sidx` the newest if it is ahead. The values that the window leaves are those whose
    /// slots the values that it reaches need.
    fn move_to(&mut self, sidx: u8) {
        if let Some(newest) = self.newest {
            let ahead = distance(newest, sidx);
            if !(1..=SLOTS).contains(&ahead) {
                return;
            }
            self.held &= !slots(newest + 1, ahead);
        }
        self.newest = Some(sidx);
    }
}
