//! The style book.

use crate::LONGEST_DESCRIPTION;

const RECORD: usize = 4 + LONGEST_DESCRIPTION;

/// The description of `sidx`; empty where the book breaks the rules or does not hold it.
pub fn find(book: &[u8], sidx: u8) -> &[u8] {
    let mut found: &[u8] = &[];
    let mut least = 128;
    let (records, rest) = book.as_chunks::<RECORD>();
    for record in records {
        let Some(description) = read(record, least) else {
            return &[];
        };
        if record[0] == sidx {
            found = description;
        }
        least = record[0] + 1;
    }
    if rest.is_empty() {
        found
    } else {
        &[]
    }
}

/// The description of a good record whose index is `least` or above.
fn read(record: &[u8; RECORD], least: u8) -> Option<&[u8]> {
    let [index, zero, high, low, ..] = *record;
    let length = usize::from(u16::from_be_bytes([high, low]));
    let good = (least..=254).contains(&index) && zero == 0 && length > 0;
    let (description, behind) = record[4..].split_at_checked(length)?;
    let clear = behind.iter().all(|byte| *byte == 0);
    (good && clear).then_some(description)
}
