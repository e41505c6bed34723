use std::error::Error;
use std::fmt;

use crate::{sys, Refusal};

/// Refusal 16, with the number of the first bad record, counted from 0.
#[derive(Debug, Clone, Copy, PartialEq, Eq)]
pub struct BadRecord(pub usize);

impl fmt::Display for BadRecord {
    fn fmt(&self, f: &mut fmt::Formatter) -> fmt::Result {
        let number = Refusal::Book.number();
        write!(
            f,
            "refused {number}: record {} of the style book is bad",
            self.0
        )
    }
}

impl Error for BadRecord {}

/// Checks a style book, and answers how many records it has.
///
/// ```
/// use spindlefig::{check_book, BadRecord};
///
/// let mut book = b"\x80\x00\x00\x05black".to_vec();
/// book.resize(260, 0);
/// assert_eq!(check_book(&book), Ok(1));
///
/// book.extend_from_within(..); // the same index again does not rise
/// assert_eq!(check_book(&book), Err(BadRecord(1)));
/// assert_eq!(BadRecord(1).to_string(), "refused 16: record 1 of the style book is bad");
/// ```
pub fn check_book(book: &[u8]) -> Result<usize, BadRecord> {
    let row = sys::check(book);
    match row[0] {
        0 => Ok(row[1] as usize),
        _ => Err(BadRecord(row[1] as usize)),
    }
}
