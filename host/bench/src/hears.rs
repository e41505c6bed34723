//! Those that are measured beside the compiled relay.

use std::hint::black_box;

/// Something that hears units; answers a number that tells outcomes apart.
pub trait Hears {
    fn hear(&mut self, desk: usize, time: Option<u32>, unit: &[u8], out: &mut [u8]) -> usize;
}

impl Hears for second::Second {
    fn hear(&mut self, desk: usize, time: Option<u32>, unit: &[u8], out: &mut [u8]) -> usize {
        use second::Outcome::*;
        let answer = self.receive(desk, time, unit, out);
        answer.used
            + match answer.outcome {
                Whole(facts) | Joined(facts) => 1000 * facts.sample,
                Refused(why) => 100 * usize::from(why),
                _ => 0,
            }
    }
}

impl Hears for rival::Rival {
    fn hear(&mut self, desk: usize, time: Option<u32>, unit: &[u8], out: &mut [u8]) -> usize {
        use rival::Outcome::*;
        let answer = self.receive(desk, time, unit, out);
        answer.used
            + match answer.outcome {
                Whole(facts) | Joined(facts) => 1000 * facts.sample,
                Refused(why) => 100 * usize::from(why),
                _ => 0,
            }
    }
}

/// Copies the bytes to the output, and does nothing else.
pub struct Copied;

impl Hears for Copied {
    fn hear(&mut self, _: usize, _: Option<u32>, unit: &[u8], out: &mut [u8]) -> usize {
        out[..unit.len()].copy_from_slice(unit);
        black_box(out);
        unit.len()
    }
}

/// Asks Rust's own decoder whether a unit's string is well-formed, and does nothing else.
pub struct Decoded;

impl Hears for Decoded {
    fn hear(&mut self, _: usize, _: Option<u32>, unit: &[u8], _: &mut [u8]) -> usize {
        let u = usize::from(unit[0] >> 7);
        usize::from(black_box(second::is_well_formed(u, string(unit))))
    }
}

/// Cuts a unit's string out for the decoder, and does nothing else.
pub struct CutOut;

impl Hears for CutOut {
    fn hear(&mut self, _: usize, _: Option<u32>, unit: &[u8], _: &mut [u8]) -> usize {
        let u = usize::from(unit[0] >> 7);
        let (u, string) = black_box((u, string(unit)));
        u + string.len()
    }
}

/// The string of a TYPE 1 or 2 unit, as far as it is there; nothing of any other.
fn string(unit: &[u8]) -> &[u8] {
    let string = match (unit[0] & 7, unit) {
        (1, [_, _, _, _, _, _, _, high, low, sample @ ..]) => {
            sample.get(..usize::from(u16::from_be_bytes([*high, *low])))
        }
        (2, unit) => unit.get(10..),
        _ => None,
    };
    string.unwrap_or_default()
}
