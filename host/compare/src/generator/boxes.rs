//! Modifier boxes, good and damaged.

use crate::random::Random;

const KINDS: [&[u8; 4]; 5] = [b"styl", b"hlit", b"krok", b"blnk", b"tbox"];

/// A few boxes one behind the other.
pub fn good(random: &mut Random) -> Vec<u8> {
    let mut modifiers = Vec::new();
    for _ in 0..random.below(4) {
        let length = random.pick(&[0, 1, 2, 4, 12, 30]);
        modifiers.extend((length as u32 + 8).to_be_bytes());
        modifiers.extend(random.pick(&KINDS));
        modifiers.extend(random.bytes(length));
    }
    modifiers
}

/// Boxes with a wrong size, cut short, or with bytes behind them.
pub fn damaged(random: &mut Random) -> Vec<u8> {
    let mut modifiers = good(random);
    match random.below(4) {
        0 => modifiers.truncate(random.below(modifiers.len() + 1)),
        1 => {
            let length = random.between(1, 9);
            modifiers.extend(random.bytes(length));
        }
        2 => modifiers.extend(b"\xFF\xFF\xFF\xFFstyl"),
        _ => {
            let size = random.pick(&[0, 1, 7, 8, 9]);
            modifiers.extend([0, 0, 0, size]);
            modifiers.extend(b"hlit");
        }
    }
    modifiers
}

/// The places where a walk from the front stops.
pub fn places(modifiers: &[u8]) -> Vec<usize> {
    let mut places = vec![0];
    let mut at = 0;
    while let second::Step::Box { next, .. } = second::step(modifiers, at) {
        places.push(next);
        at = next;
    }
    places
}
