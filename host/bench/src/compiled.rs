//! A compiled relay with the memory that is lent to it.

use crate::hears::Hears;
use crate::library::{Calls, Library};

/// How many numbers an answer fills, at most.
const ROW: usize = 10;

/// Kinds of outcomes in a row.
const WHOLE: u64 = 1;
const JOINED: u64 = 2;
const REFUSED: u64 = 7;

pub struct Compiled {
    pub calls: Calls,
    desks: usize,
    places: Vec<u64>,
    places_len: usize,
    rows: Vec<u32>,
    marks: Vec<u32>,
    stores: Vec<u8>,
    row: [u64; ROW],
}

impl Compiled {
    pub fn fresh(library: &Library, desks: usize) -> Compiled {
        let l = library;
        // SAFETY: these calls take at most a number.
        let mut relay = unsafe {
            Compiled {
                calls: l.calls,
                desks,
                places: vec![0; (l.places)(desks) * (l.place_size)().div_ceil(8)],
                places_len: (l.places)(desks),
                rows: vec![0; (l.rows)(desks)],
                marks: vec![0; (l.marks)(desks)],
                stores: vec![0; (l.stores)(desks)],
                row: [0; ROW],
            }
        };
        // SAFETY: each pointer goes with its own vector's length, and the zeros of a place are one.
        let refusal = unsafe {
            (l.set_up)(
                desks,
                relay.places.as_mut_ptr(),
                relay.places_len,
                relay.rows.as_mut_ptr(),
                relay.rows.len(),
                relay.marks.as_mut_ptr(),
                relay.marks.len(),
                relay.stores.as_mut_ptr(),
                relay.stores.len(),
            )
        };
        assert_eq!(refusal, 0, "1 to 8 desks");
        relay
    }

    /// What the library's receive answers. An old one, to which every time is known, gets 0 for an
    /// unknown one.
    pub fn receive(
        &mut self,
        desk: usize,
        time: Option<u32>,
        unit: &[u8],
        out: &mut [u8],
    ) -> usize {
        let (known, time) = (usize::from(time.is_some()), time.unwrap_or_default());
        let (places, places_len) = (self.places.as_mut_ptr(), self.places_len);
        let (rows, rows_len) = (self.rows.as_mut_ptr(), self.rows.len());
        let (marks, marks_len) = (self.marks.as_mut_ptr(), self.marks.len());
        let (stores, stores_len) = (self.stores.as_mut_ptr(), self.stores.len());
        let (rest, rest_len) = (unit.as_ptr(), unit.len());
        let (out, out_len) = (out.as_mut_ptr(), out.len());
        let row = self.row.as_mut_ptr();
        // SAFETY: each pointer goes with its own slice's length, and set-up made the places.
        unsafe {
            match self.calls {
                Calls::Now(receive, _) => receive(
                    places, places_len, rows, rows_len, marks, marks_len, stores, stores_len, desk,
                    known, time, rest, rest_len, out, out_len, row, ROW,
                ),
                Calls::Timed(receive, _) => receive(
                    places, places_len, rows, rows_len, marks, marks_len, stores, stores_len, desk,
                    time, rest, rest_len, out, out_len, row, ROW,
                ),
                Calls::WithDesks(receive, _) => receive(
                    self.desks, places, places_len, rows, rows_len, marks, marks_len, stores,
                    stores_len, desk, time, rest, rest_len, out, out_len, row, ROW,
                ),
            }
        }
    }

    /// What the library's give-up answers.
    pub fn give_up(&mut self, desk: usize, time: u32) -> usize {
        let (places, places_len) = (self.places.as_mut_ptr(), self.places_len);
        let (rows, rows_len) = (self.rows.as_mut_ptr(), self.rows.len());
        let (marks, marks_len) = (self.marks.as_mut_ptr(), self.marks.len());
        // SAFETY: each pointer goes with its own vector's length, and set-up made the places.
        unsafe {
            match self.calls {
                Calls::Now(_, give_up) | Calls::Timed(_, give_up) => give_up(
                    places, places_len, rows, rows_len, marks, marks_len, desk, time,
                ),
                Calls::WithDesks(_, give_up) => give_up(
                    self.desks, places, places_len, rows, rows_len, marks, marks_len, desk, time,
                ),
            }
        }
    }
}

impl Hears for Compiled {
    fn hear(&mut self, desk: usize, time: Option<u32>, unit: &[u8], out: &mut [u8]) -> usize {
        let used = self.receive(desk, time, unit, out);
        let kind = self.calls.kind();
        used + match self.row[kind] {
            WHOLE | JOINED => 1000 * self.row[kind + 6] as usize,
            REFUSED => 100 * self.row[kind + 1] as usize,
            _ => 0,
        }
    }
}
