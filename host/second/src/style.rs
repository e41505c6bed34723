//! The style book.

use crate::LONGEST_DESCRIPTION;

const RECORD: usize = 4 + LONGEST_DESCRIPTION;

/// The count of records of a good book, or the first bad record's number.
pub fn check(book: &[u8]) -> Result<usize, usize> {
    let mut least = 128;
    let mut count = 0;
    for record in book.chunks(RECORD) {
        if !is_good(record, least) {
            return Err(count);
        }
        least = record[0] + 1;
        count += 1;
    }
    Ok(count)
}

/// The description of `sidx`, if the book is good and holds it.
pub fn find(book: &[u8], sidx: u8) -> Option<&[u8]> {
    check(book).ok()?;
    book.chunks(RECORD)
        .find(|record| record[0] == sidx)
        .map(|record| &record[4..4 + length(record)])
}

fn length(record: &[u8]) -> usize {
    usize::from(u16::from_be_bytes([record[2], record[3]]))
}

fn is_good(record: &[u8], least: u8) -> bool {
    record.len() == RECORD
        && (least..=254).contains(&record[0])
        && record[1] == 0
        && (1..=LONGEST_DESCRIPTION).contains(&length(record))
        && record[4 + length(record)..].iter().all(|&byte| byte == 0)
}
