//! The memory that a caller lends to a call, as far as refusal 1 asks for it.

use crate::MOST_DESKS;

/// The numbers in front of the desks' marks: how many desks there are, the common use, and each of
/// eight desks' open samples.
const HEAD: usize = 1 + 1 + MOST_DESKS;

/// How much is lent, in elements, and the number that stands at the front of the marks, where set-up
/// keeps how many desks there are.
#[derive(Debug, Clone, Copy, PartialEq, Eq)]
pub struct Lent {
    pub head: u32,
    pub places: usize,
    pub rows: usize,
    pub marks: usize,
    pub stores: usize,
}

impl Lent {
    /// Exactly what `n` desks need, as set-up leaves it.
    pub fn needed(n: usize) -> Lent {
        Lent {
            head: n as u32,
            places: 4 * n,
            rows: 16 * n,
            marks: HEAD + 2 * n,
            stores: 64 * 260 * n,
        }
    }

    /// How many desks this memory is for, or refusal 1 where it is for none.
    pub fn desks(&self) -> Result<usize, u8> {
        let n = self.head as usize;
        if self.marks == 0 || !(1..=MOST_DESKS).contains(&n) {
            return Err(1);
        }
        let needed = Lent::needed(n);
        let is_enough = self.places >= needed.places
            && self.rows >= needed.rows
            && self.marks >= needed.marks
            && self.stores >= needed.stores;
        is_enough.then_some(n).ok_or(1)
    }
}
