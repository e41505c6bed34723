//! Samples to write, and samples cut in parts by hand.

use super::boxes;
use super::units::{part, whole, Head};
use crate::opinion::Caption;
use crate::random::Random;
use second::is_well_formed;

const CHARACTERS: [char; 16] = [
    'a',
    'k',
    'z',
    ' ',
    '\0',
    '\u{7F}',
    '\u{80}',
    '\u{E9}',
    '\u{7FF}',
    '\u{800}',
    '\u{20AC}',
    '\u{D7FF}',
    '\u{E000}',
    '\u{FFFF}',
    '\u{10000}',
    '\u{10FFFF}',
];

/// Lengths of samples that are cut by hand.
const LENGTHS: [usize; 8] = [1, 4, 9, 40, 1023, 1024, 1024, 1025];

fn encoded(u: usize, character: char) -> Vec<u8> {
    if u == 0 {
        return character.encode_utf8(&mut [0; 4]).as_bytes().to_vec();
    }
    let units = character.encode_utf16(&mut [0; 2]).to_vec();
    units.iter().flat_map(|unit| unit.to_be_bytes()).collect()
}

/// A well-formed string of that many bytes; one fewer where they are odd and it is UTF-16.
pub fn string(u: usize, length: usize, random: &mut Random) -> Vec<u8> {
    let few = random.pick(&[3, CHARACTERS.len()]);
    let mut bytes = Vec::new();
    while bytes.len() + u < length {
        let next = encoded(u, CHARACTERS[random.below(few)]);
        if bytes.len() + next.len() <= length {
            bytes.extend(next);
        }
    }
    bytes
}

/// Takes a string's well-formedness, most of the time.
fn break_string(string: &mut Vec<u8>, random: &mut Random) {
    match random.below(3) {
        0 => string.truncate(string.len().saturating_sub(random.between(1, 3))),
        1 => string.push(random.pick(&[0x80, 0xC0, 0xD8, 0xF5, 0xFF])),
        _ if string.is_empty() => {}
        _ => {
            let place = random.below(string.len());
            string[place] = random.pick(&[0x80, 0xBF, 0xC1, 0xD8, 0xDC, 0xED, 0xF4, 0xFF]);
        }
    }
}

/// The string as it is when it is broken, where that is not well-formed.
fn broken(u: usize, string: &[u8], random: &mut Random) -> Option<Vec<u8>> {
    let mut string = string.to_vec();
    break_string(&mut string, random);
    (!is_well_formed(u, &string)).then_some(string)
}

/// A caption the writer takes, as a rule.
pub fn caption(sdur: u32, random: &mut Random) -> Caption {
    let u = usize::from(random.percent(40));
    let most = random.pick(&[0, 10, 30, 60, 100, 400, 1030]);
    let length = random.below(most + 1);
    let mut caption = Caption {
        u,
        sidx: random.pick(&[0, 5, 127, 128, 254]),
        sdur: sdur as usize,
        string: string(u, length, random),
        modifiers: boxes::good(random),
    };
    match random.below(20) {
        0 => break_string(&mut caption.string, random),
        1 => fill(&mut caption, random),
        2 => strange(&mut caption, random),
        _ => {}
    }
    caption
}

/// Makes the sample about as long as any may be.
fn fill(caption: &mut Caption, random: &mut Random) {
    let sample = random.pick(&[1023, 1024, 1025]);
    let modifiers = sample - caption.string.len().min(sample);
    caption.modifiers = random.bytes(modifiers);
}

/// Takes one number out of its range.
fn strange(caption: &mut Caption, random: &mut Random) {
    match random.below(3) {
        0 => caption.u = random.pick(&[2, 256, usize::MAX]),
        1 => caption.sidx = random.pick(&[255, 256, 384, usize::MAX]),
        _ => caption.sdur = random.pick(&[1 << 24, 1 << 32, usize::MAX]),
    }
}

/// Ascending places, multiples of `step`, that cut `length` bytes in `total` pieces, none empty.
fn cuts(length: usize, step: usize, total: usize, random: &mut Random) -> Vec<usize> {
    let mut places: Vec<usize> = (step..length).step_by(step).collect();
    random.shuffle(&mut places);
    places.truncate(total - 1);
    places.sort_unstable();
    places.insert(0, 0);
    places.push(length);
    places
}

/// `length` bytes in a piece for each TYPE: strings by themselves for TYPE 2, now and then cut anew
/// anywhere, and any bytes for the others.
fn pieces(u: usize, length: usize, kinds: &[u8], random: &mut Random) -> Vec<Vec<u8>> {
    let places = cuts(length, 1 + u, kinds.len(), random);
    let mut pieces = Vec::new();
    for (kind, ends) in kinds.iter().zip(places.windows(2)) {
        let length = ends[1] - ends[0];
        pieces.push(match kind {
            2 => string(u, length, random),
            _ => random.bytes(length),
        });
    }
    if random.percent(6) {
        let all = pieces.concat();
        let places = cuts(length, 1, kinds.len(), random);
        let piece = |ends: &[usize]| all[ends[0]..ends[1]].to_vec();
        pieces = places.windows(2).map(piece).collect();
    }
    pieces
}

/// The TYPEs of `total` parts, wrong now and then.
fn kinds(total: usize, random: &mut Random) -> Vec<u8> {
    let strings = random.between(1, total);
    let confusion = random.pick(&[0, 0, 0, 2, 2, 2, 2, 2, 100]);
    let kind = |this| match this {
        _ if random.percent(confusion) => random.pick(&[2, 2, 3, 4]),
        this if this <= strings => 2,
        this if this == strings + 1 => 3,
        _ => 4,
    };
    (1..=total).map(kind).collect()
}

/// The parts of a sample cut by hand, with a length or TYPE that is wrong now and then, and some
/// string parts that are sent broken as well.
pub fn by_hand(sdur: u32, random: &mut Random) -> Vec<Vec<u8>> {
    let u = random.below(2);
    let length = random.pick(&LENGTHS).next_multiple_of(1 + u);
    let most = random.pick(&[2, 3, 15]);
    let total = random.between(1, most.min(length / (1 + u)));
    let wrong = random.pick(&[length + 1, length - 1, 1024]);
    let mut head = Head {
        kind: 2,
        u: u as u8,
        total: total as u8,
        this: 0,
        sdur,
        sidx: random.pick(&[5, 128, 254]),
        slen: if random.percent(15) { wrong } else { length } as u16,
    };
    let kinds = kinds(total, random);
    let mut parts = Vec::new();
    for data in pieces(u, length, &kinds, random) {
        head.kind = kinds[usize::from(head.this)];
        head.this += 1;
        if head.kind == 2 && random.percent(15) {
            parts.extend(broken(u, &data, random).map(|data| part(head, &data)));
        }
        parts.push(part(head, &data));
    }
    parts
}

/// A sample in one unit, and the same unit with a string that is broken.
pub fn in_one(sdur: u32, random: &mut Random) -> Vec<Vec<u8>> {
    let u = random.below(2);
    let length = random.pick(&LENGTHS);
    let most = random.below(length + 1);
    let text = string(u, most, random);
    let modifiers = random.bytes(length - text.len());
    let unit = |text: &[u8]| {
        let data = [text, &modifiers].concat();
        whole(u as u8, 128, sdur, text.len() as u16, &data)
    };
    let broken = broken(u, &text, random);
    broken
        .iter()
        .chain([&text])
        .map(|text| unit(text))
        .collect()
}
