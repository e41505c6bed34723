//! Style books, good and damaged.

use crate::random::Random;

const RECORD: usize = 260;

/// A book that keeps the rules.
pub fn good(random: &mut Random) -> Vec<u8> {
    let share = random.pick(&[0, 1, 2, 4, 8, 128]);
    let mut book = Vec::new();
    for index in 128..=254 {
        if random.below(128) < share {
            let length = random.pick(&[1, 2, 30, 255, 256]);
            let description = random.bytes(length);
            book.extend([index, 0]);
            book.extend((length as u16).to_be_bytes());
            book.extend(description);
            book.resize(book.len().next_multiple_of(RECORD), 0);
        }
    }
    book
}

/// A book with one kind of damage, which may happen to leave it good.
pub fn damaged(random: &mut Random) -> Vec<u8> {
    let mut book = good(random);
    if book.is_empty() {
        let length = random.pick(&[1, 3, 4, 259, 260]);
        return random.bytes(length);
    }
    let start = random.below(book.len() / RECORD) * RECORD;
    let record = &mut book[start..start + RECORD];
    match random.below(9) {
        0 => record[0] = random.pick(&[0, 127, 128, 254, 255]),
        1 => record[1] = random.pick(&[1, 128]),
        2 => record[2..4].copy_from_slice(&random.pick(&[[0, 0], [1, 1], [1, 0], [255, 255]])),
        3 => record[3] = record[3].wrapping_sub(1),
        4 => record[random.between(4, RECORD - 1)] ^= 1,
        5 => record[RECORD - 1] ^= 1,
        6 => book.truncate(start + random.between(1, RECORD - 1)),
        7 => book.extend_from_within(start..start + random.between(1, RECORD)),
        _ => {
            let twice = record.to_vec();
            book.splice(start..start, twice);
        }
    }
    book
}

/// The index of one of the book's records, or any.
pub fn index(book: &[u8], random: &mut Random) -> usize {
    let records = book.len() / RECORD;
    if records == 0 {
        return random.between(128, 255);
    }
    usize::from(book[random.below(records) * RECORD])
}
