//! The in-band descriptions of one desk.

use crate::{Outcome, LONGEST_DESCRIPTION};
use std::collections::BTreeMap;

#[derive(Debug, Clone, Default, PartialEq, Eq)]
pub struct Window {
    newest: Option<u8>,
    held: BTreeMap<u8, Vec<u8>>,
}

/// How far `from` has to go up to reach `to`, modulo 128.
fn distance(from: u8, to: u8) -> u8 {
    to.wrapping_sub(from) % 128
}

impl Window {
    /// Takes a TYPE 5 unit.
    pub fn describe(&mut self, sidx: u8, data: &[u8]) -> Result<Outcome, u8> {
        if data.len() > LONGEST_DESCRIPTION {
            return Err(5);
        }
        match self.held.get(&sidx) {
            Some(held) if held == data => return Ok(Outcome::Repeat),
            Some(_) => return Err(7),
            None => {}
        }
        self.move_to(sidx);
        self.held.insert(sidx, data.to_vec());
        Ok(Outcome::Described)
    }

    pub fn get(&self, sidx: u8) -> Option<&[u8]> {
        self.held.get(&sidx).map(Vec::as_slice)
    }

    /// Makes `sidx` the newest if it is ahead, and forgets what the window leaves behind.
    fn move_to(&mut self, sidx: u8) {
        let ahead = match self.newest {
            None => true,
            Some(newest) => (1..=64).contains(&distance(newest, sidx)),
        };
        if ahead {
            self.newest = Some(sidx);
            self.held.retain(|&held, _| distance(held, sidx) <= 63);
        }
    }
}
