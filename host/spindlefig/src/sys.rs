//! The calls of the proved library as C sees them, and the memory that is lent to them. All
//! `unsafe` of the crate stands here.

use crate::{Caption, Counts, Lent};
use std::array;

/// How many numbers an answer fills.
pub(crate) const ROW: usize = 10;

pub(crate) type Row = [u64; ROW];

/// The bytes that a place is aligned to.
const WORD: usize = 8;

/// What stands at the front of the marks: how many desks there are, the common use, and from there on
/// each of eight desks' open samples.
const MARKS_DESKS: usize = 0;
const MARKS_COMMON: usize = 1;
const MARKS_OPEN: usize = 2;

extern "C" {
    fn spindlefig_place_size() -> usize;
    fn spindlefig_places(n: usize) -> usize;
    fn spindlefig_rows(n: usize) -> usize;
    fn spindlefig_marks(n: usize) -> usize;
    fn spindlefig_stores(n: usize) -> usize;
    fn spindlefig_set_up(
        n: usize,
        places: *mut u64,
        places_len: usize,
        rows: *mut u32,
        rows_len: usize,
        marks: *mut u32,
        marks_len: usize,
        stores: *mut u8,
        stores_len: usize,
    ) -> usize;
    fn spindlefig_receive(
        places: *mut u64,
        places_len: usize,
        rows: *mut u32,
        rows_len: usize,
        marks: *mut u32,
        marks_len: usize,
        stores: *mut u8,
        stores_len: usize,
        desk: usize,
        known: usize,
        time: u32,
        rest: *const u8,
        rest_len: usize,
        out: *mut u8,
        out_len: usize,
        row: *mut u64,
        row_len: usize,
    ) -> usize;
    fn spindlefig_give_up(
        places: *mut u64,
        places_len: usize,
        rows: *mut u32,
        rows_len: usize,
        marks: *mut u32,
        marks_len: usize,
        desk: usize,
        time: u32,
    ) -> usize;
    fn spindlefig_lookup(
        marks: *const u32,
        marks_len: usize,
        stores: *const u8,
        stores_len: usize,
        desk: usize,
        index: usize,
        book: *const u8,
        book_len: usize,
        out: *mut u8,
        out_len: usize,
    ) -> usize;
    fn spindlefig_check(book: *const u8, book_len: usize, row: *mut u64, row_len: usize);
    fn spindlefig_write(
        u: usize,
        sidx: usize,
        sdur: usize,
        string: *const u8,
        string_len: usize,
        modifiers: *const u8,
        modifiers_len: usize,
        m: usize,
        k: usize,
        out: *mut u8,
        out_len: usize,
        row: *mut u64,
        row_len: usize,
    );
    fn spindlefig_describe(
        sidx: usize,
        d: *const u8,
        d_len: usize,
        m: usize,
        k: usize,
        out: *mut u8,
        out_len: usize,
        row: *mut u64,
        row_len: usize,
    );
    fn spindlefig_box(
        modifiers: *const u8,
        modifiers_len: usize,
        at: usize,
        row: *mut u64,
        row_len: usize,
    );
    fn spindlefig_character(u: usize, s: *const u8, s_len: usize, at: usize) -> usize;
    fn spindlefig_well_formed(u: usize, s: *const u8, s_len: usize) -> bool;
}

/// The memory of a relay, lent to every call. The places are words: only the library reads them.
/// The number of desks and the counts stand at the front of the marks, where set-up puts them.
#[derive(Clone, PartialEq, Eq)]
pub(crate) struct Tables {
    places: Vec<u64>,
    rows: Vec<u32>,
    marks: Vec<u32>,
    stores: Vec<u8>,
    /// How much of each is lent, which is never more than there is.
    lent: Lengths,
}

/// Lengths in elements, as the library counts them.
#[derive(Clone, Copy, PartialEq, Eq)]
struct Lengths {
    places: usize,
    rows: usize,
    marks: usize,
    stores: usize,
}

impl Lengths {
    /// What n desks need; nothing where n is not 1 to 8.
    fn needed(n: usize) -> Lengths {
        // SAFETY: these calls take nothing but a number.
        unsafe {
            Lengths {
                places: spindlefig_places(n),
                rows: spindlefig_rows(n),
                marks: spindlefig_marks(n),
                stores: spindlefig_stores(n),
            }
        }
    }
}

/// The words of one place.
fn place_words() -> usize {
    // SAFETY: the call takes nothing.
    unsafe { spindlefig_place_size() }.div_ceil(WORD)
}

impl Tables {
    /// What n desks need, all zeros; nothing where n is not 1 to 8.
    fn zeros(n: usize) -> Tables {
        let lent = Lengths::needed(n);
        Tables {
            places: vec![0; lent.places * place_words()],
            rows: vec![0; lent.rows],
            marks: vec![0; lent.marks],
            stores: vec![0; lent.stores],
            lent,
        }
    }

    /// Fresh tables for n desks, or the refusal's number.
    pub(crate) fn set_up(n: usize) -> Result<Tables, usize> {
        let mut t = Tables::zeros(n);
        match t.make_fresh(n) {
            0 => Ok(t),
            refusal => Err(refusal),
        }
    }

    /// Sets up what is lent, and answers the refusal's number or 0.
    fn make_fresh(&mut self, n: usize) -> usize {
        // SAFETY: no pointer goes with more than its own vector's length, and the zeros of a place are one.
        unsafe {
            spindlefig_set_up(
                n,
                self.places.as_mut_ptr(),
                self.lent.places,
                self.rows.as_mut_ptr(),
                self.lent.rows,
                self.marks.as_mut_ptr(),
                self.lent.marks,
                self.stores.as_mut_ptr(),
                self.lent.stores,
            )
        }
    }

    /// The number of desks that stands in the marks.
    pub(crate) fn desks(&self) -> usize {
        self.marks[MARKS_DESKS] as usize
    }

    /// The counts that stand in the marks, lent or not.
    pub(crate) fn counts(&self) -> Counts {
        Counts {
            open: array::from_fn(|desk| self.marks[MARKS_OPEN + desk] as usize),
            common: self.marks[MARKS_COMMON] as usize,
        }
    }

    /// From now on lends what is said, or all there is where that is less; answers what was lent.
    pub(crate) fn lend(&mut self, lent: Lent) -> Lent {
        let before = Lent {
            head: self.marks[MARKS_DESKS],
            places: self.lent.places,
            rows: self.lent.rows,
            marks: self.lent.marks,
            stores: self.lent.stores,
        };
        self.marks[MARKS_DESKS] = lent.head;
        self.lent = Lengths {
            places: lent.places.min(self.places.len() / place_words()),
            rows: lent.rows.min(self.rows.len()),
            marks: lent.marks.min(self.marks.len()),
            stores: lent.stores.min(self.stores.len()),
        };
        before
    }

    /// `known` is 0 where the running time is unknown, and the time is not looked at then.
    pub(crate) fn receive(
        &mut self,
        desk: usize,
        known: usize,
        time: u32,
        rest: &[u8],
        out: &mut [u8],
    ) -> Row {
        let mut row = [0; ROW];
        // SAFETY: no pointer goes with more than its own slice's length, and set-up made the places.
        unsafe {
            spindlefig_receive(
                self.places.as_mut_ptr(),
                self.lent.places,
                self.rows.as_mut_ptr(),
                self.lent.rows,
                self.marks.as_mut_ptr(),
                self.lent.marks,
                self.stores.as_mut_ptr(),
                self.lent.stores,
                desk,
                known,
                time,
                rest.as_ptr(),
                rest.len(),
                out.as_mut_ptr(),
                out.len(),
                row.as_mut_ptr(),
                row.len(),
            )
        };
        row
    }

    /// 0, or the refusal's number.
    pub(crate) fn give_up(&mut self, desk: usize, time: u32) -> usize {
        // SAFETY: no pointer goes with more than its own vector's length, and set-up made the places.
        unsafe {
            spindlefig_give_up(
                self.places.as_mut_ptr(),
                self.lent.places,
                self.rows.as_mut_ptr(),
                self.lent.rows,
                self.marks.as_mut_ptr(),
                self.lent.marks,
                desk,
                time,
            )
        }
    }

    /// The length of the description, which is put at the front of the output.
    pub(crate) fn lookup(&self, desk: usize, index: usize, book: &[u8], out: &mut [u8]) -> usize {
        // SAFETY: no pointer goes with more than its own slice's length.
        unsafe {
            spindlefig_lookup(
                self.marks.as_ptr(),
                self.lent.marks,
                self.stores.as_ptr(),
                self.lent.stores,
                desk,
                index,
                book.as_ptr(),
                book.len(),
                out.as_mut_ptr(),
                out.len(),
            )
        }
    }
}

pub(crate) fn check(book: &[u8]) -> Row {
    let mut row = [0; ROW];
    // SAFETY: each pointer goes with its own slice's length.
    unsafe { spindlefig_check(book.as_ptr(), book.len(), row.as_mut_ptr(), row.len()) };
    row
}

pub(crate) fn write(c: &Caption, m: usize, k: usize, out: &mut [u8]) -> Row {
    let mut row = [0; ROW];
    // SAFETY: each pointer goes with its own slice's length.
    unsafe {
        spindlefig_write(
            c.u,
            c.sidx,
            c.sdur,
            c.string.as_ptr(),
            c.string.len(),
            c.modifiers.as_ptr(),
            c.modifiers.len(),
            m,
            k,
            out.as_mut_ptr(),
            out.len(),
            row.as_mut_ptr(),
            row.len(),
        )
    };
    row
}

pub(crate) fn describe(sidx: usize, d: &[u8], m: usize, k: usize, out: &mut [u8]) -> Row {
    let mut row = [0; ROW];
    // SAFETY: each pointer goes with its own slice's length.
    unsafe {
        spindlefig_describe(
            sidx,
            d.as_ptr(),
            d.len(),
            m,
            k,
            out.as_mut_ptr(),
            out.len(),
            row.as_mut_ptr(),
            row.len(),
        )
    };
    row
}

pub(crate) fn step(modifiers: &[u8], at: usize) -> Row {
    let mut row = [0; ROW];
    // SAFETY: each pointer goes with its own slice's length.
    unsafe {
        spindlefig_box(
            modifiers.as_ptr(),
            modifiers.len(),
            at,
            row.as_mut_ptr(),
            row.len(),
        )
    };
    row
}

pub(crate) fn character(u: usize, s: &[u8], at: usize) -> usize {
    // SAFETY: the pointer goes with its own slice's length.
    unsafe { spindlefig_character(u, s.as_ptr(), s.len(), at) }
}

pub(crate) fn well_formed(u: usize, s: &[u8]) -> bool {
    // SAFETY: the pointer goes with its own slice's length.
    unsafe { spindlefig_well_formed(u, s.as_ptr(), s.len()) }
}

#[cfg(test)]
mod tests {
    use super::*;

    extern "C" {
        fn spindlefig_output() -> usize;
        fn spindlefig_row() -> usize;
    }

    #[test]
    fn the_library_has_the_same_sizes() {
        // SAFETY: these calls take nothing.
        let (output, row) = unsafe { (spindlefig_output(), spindlefig_row()) };
        assert_eq!((output, row), (crate::OUTPUT, ROW));
    }

    #[test]
    fn the_tables_are_what_the_desks_need() {
        let t = Tables::zeros(8);
        assert_eq!((t.lent.places, t.places.len() * WORD), (32, 32 * 1472));
        assert_eq!(
            (t.rows.len(), t.marks.len(), t.stores.len()),
            (128, 10 + 16, 133120)
        );
        assert!(Tables::zeros(9).places.is_empty());
    }

    #[test]
    fn set_up_puts_the_number_of_desks_and_zeros_in_front() {
        for n in 1..=8 {
            let mut t = Tables::zeros(n);
            t.marks.fill(7);
            assert_eq!(t.make_fresh(n), 0);
            assert_eq!(t.marks[..10], [n as u32, 0, 0, 0, 0, 0, 0, 0, 0, 0]);
            assert_eq!(t.desks(), n);
        }
    }

    #[test]
    fn counts_are_read_from_the_marks() {
        let mut t = Tables::zeros(8);
        t.marks[..10].copy_from_slice(&[8, 20, 30, 31, 32, 33, 34, 35, 36, 37]);
        let open = [30, 31, 32, 33, 34, 35, 36, 37];
        assert_eq!(t.counts(), Counts { open, common: 20 });
    }

    /// Numbers that no call left there: none falls below 0, and none rises over what a mark holds.
    #[test]
    fn wrong_counts_stay_within_a_mark() {
        let mut t = Tables::zeros(2);
        assert_eq!(t.make_fresh(2), 0);
        let opening = [2, 0, 10, 0x21, 0, 0, 100, 128, 0, 2, b'a'];
        for time in 1..=3 {
            t.marks[MARKS_COMMON] = u32::MAX;
            t.receive(0, 1, time, &opening, &mut [0; crate::OUTPUT]);
        }
        let counts = |first, common| Counts {
            open: [first, 0, 0, 0, 0, 0, 0, 0],
            common,
        };
        assert_eq!(t.counts(), counts(3, u32::MAX as usize));
        t.marks[MARKS_COMMON] = 0;
        assert_eq!((t.give_up(0, 3), t.counts()), (0, counts(2, 0)));
        t.marks[MARKS_OPEN] = 0;
        assert_eq!((t.give_up(0, 2), t.counts()), (0, counts(0, 0)));
    }

    /// A line of unknown length, at a time: the time is unknown behind it. Where the time is unknown a
    /// line that lasts is 18.
    #[test]
    fn a_row_tells_whether_the_next_time_is_known() {
        let mut t = Tables::zeros(1);
        assert_eq!(t.make_fresh(1), 0);
        let mut row = |known, time, sdur| {
            let unit = [1, 0, 9, 128, 0, 0, sdur, 0, 1, b'a'];
            t.receive(0, known, time, &unit, &mut [0; crate::OUTPUT])
        };
        assert_eq!(row(1, 7, 5), [10, 1, 12, 1, 7, 0, 128, 5, 1, 1]);
        assert_eq!(row(1, 8, 0), [10, 0, 0, 1, 8, 0, 128, 0, 1, 1]);
        for time in [0, 8, 12, u32::MAX] {
            assert_eq!(row(0, time, 5), [10, 0, 0, 7, 18, 0, 0, 0, 0, 0]);
        }
        for known in [1, 2, usize::MAX] {
            assert_eq!(row(known, 7, 5), [10, 1, 12, 7, 6, 0, 0, 0, 0, 0]);
        }
    }
}
