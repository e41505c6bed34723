//! What is played: the units of one round, the same for everyone.

use spindlefig::{Caption, Writer};
use std::iter::repeat_n;

/// One unit, sent by a desk so much later than the round began, or at an unknown time (`None`).
pub struct Call {
    pub desk: usize,
    pub after: Option<u32>,
    pub unit: Vec<u8>,
}

impl Call {
    /// The running time, in a round that begins then.
    pub fn time(&self, begin: u32) -> Option<u32> {
        self.after.map(|after| begin + after)
    }
}

/// A round of units that is played again and again, each time `span` later.
pub struct Load {
    pub name: String,
    pub desks: usize,
    /// Units that are played once, before the clock starts.
    pub before: Vec<Call>,
    pub round: Vec<Call>,
    pub span: u32,
}

impl Load {
    /// The bytes of a round.
    pub fn bytes(&self) -> usize {
        self.round.iter().map(|call| call.unit.len()).sum()
    }
}

/// Running times of the units played before; the rounds come earlier.
const HELD: u32 = 4_000_000_000;

/// Rounds of the hostile mix are this many units.
const MIX: usize = 512;

/// What the strings repeat: letters of one byte, of two, and of one with an apostrophe of three now
/// and then, about one in 60 bytes.
const ASCII: &str = "a";
const GREEK: &str = "αβγδεζηθικ";
pub const QUOTES: &str = "\
    The lights go down and the hall is dark; it’s the hour when nobody speaks. We don’t know how \
    the play ends, but the prompter does, and she’s not telling before the last act. ";

/// So many bytes of the text again and again; a character has to end there.
fn string(text: &str, len: usize) -> String {
    let mut string = text.repeat(len.div_ceil(text.len()));
    string.truncate(len);
    string
}

fn payloads(text: &str, len: usize, limit: usize) -> Vec<Vec<u8>> {
    let string = string(text, len);
    let caption = Caption {
        u: 0,
        sidx: 128,
        sdur: 1,
        string: string.as_bytes(),
        modifiers: &[],
    };
    Writer::new(limit)
        .payloads(&caption)
        .expect("the caption can be cut")
}

/// A unit that opens a sample and never finishes it.
fn opening() -> Vec<u8> {
    vec![2, 0, 10, 0x21, 0, 0, 1, 128, 0, 4, b'?']
}

/// Opens samples of desk 0, as many as are said, and then of the others, until only one place is left,
/// which desk 0 may take.
fn filling(desks: usize, open: usize) -> Vec<Call> {
    let own = (1..desks).flat_map(|desk| [desk; 2]);
    let common = (1..desks).rev().flat_map(|desk| [desk; 4]);
    repeat_n(0, open)
        .chain(own)
        .chain(common)
        .take(4 * desks - 1)
        .enumerate()
        .map(|(i, desk)| Call {
            desk,
            after: Some(HELD + i as u32),
            unit: opening(),
        })
        .collect()
}

fn load(name: String, desks: usize, full: bool, round: Vec<Call>, span: u32) -> Load {
    let (before, table) = match (full, desks) {
        (false, _) => (Vec::new(), "empty"),
        (true, 1) => (filling(1, 3), "full"),
        (true, _) => (filling(desks, 1), "full"),
    };
    Load {
        name: format!("{name:<23} {desks} {table:<5}"),
        desks,
        before,
        round,
        span,
    }
}

/// What the name of a load says of its text.
fn mark(text: &str) -> &'static str {
    match text {
        GREEK => " Greek",
        QUOTES => " quotes",
        _ => "",
    }
}

fn whole(text: &str, len: usize, desks: usize, full: bool) -> Load {
    let unit = payloads(text, len, len + 9).remove(0);
    let round = (0..desks)
        .map(|desk| Call {
            desk,
            after: Some(0),
            unit: unit.clone(),
        })
        .collect();
    let name = format!("whole {len}{}", mark(text));
    load(name, desks, full, round, 1)
}

fn of_desk_0(units: Vec<Vec<u8>>) -> Vec<Call> {
    units
        .into_iter()
        .map(|unit| Call {
            desk: 0,
            after: Some(0),
            unit,
        })
        .collect()
}

fn parts(text: &str, count: usize, backwards: bool, desks: usize, full: bool) -> Load {
    let len = 900;
    let mut units = payloads(text, len, len / count + 10);
    assert_eq!(units.len(), count, "the writer cuts as the name says");
    let mut way = "forwards";
    if backwards {
        units.reverse();
        way = "backwards";
    }
    let name = format!("{count} parts {way}{}", mark(text));
    load(name, desks, full, of_desk_0(units), 1)
}

/// Short samples in two parts, of desk 0 while it has so many others open: every second unit opens one.
fn short_parts(open: usize, desks: usize) -> Load {
    let round = of_desk_0(payloads(ASCII, 8, 14));
    let name = format!("short parts at {open} open");
    let mut load = load(name, desks, open > 0, round, 1);
    if open > 0 {
        load.before = filling(desks, open);
    }
    load
}

/// A part that is refused by this number, 6 to 9 or 18, and changes nothing, again and again.
fn refused(number: usize, desks: usize) -> Load {
    let name = format!("part refused {number}");
    let mut load = load(name, desks, true, Vec::new(), 0);
    let last = load.before.last().expect("a full table");
    let time = HELD + load.before.len() as u32;
    let (first, desk, after) = match number {
        6 => (payloads(ASCII, 1, 14).pop(), 0, Some(time)),
        // Other bytes for the sample that lies last in the table.
        7 => (None, last.desk, last.after),
        8 => (None, desks - 1, Some(time)),
        // Desk 0 takes the last place.
        9 => (Some(opening()), 0, Some(time + 1)),
        _ => (None, 0, None),
    };
    load.before.extend(first.map(|unit| Call {
        desk: 0,
        after: Some(time),
        unit,
    }));
    let mut unit = opening();
    unit[10] = b'!';
    load.round.push(Call { desk, after, unit });
    load
}

/// A small generator of numbers (xorshift).
struct Dice(u64);

impl Dice {
    fn below(&mut self, n: usize) -> usize {
        self.0 ^= self.0 << 13;
        self.0 ^= self.0 >> 7;
        self.0 ^= self.0 << 17;
        (self.0 % n as u64) as usize
    }
}

/// A damaged unit: cut short, with a bit turned, or as it was.
fn damaged(dice: &mut Dice, mut unit: Vec<u8>) -> Vec<u8> {
    match dice.below(4) {
        0 => unit.truncate(dice.below(unit.len()) + 1),
        1 => {
            let at = dice.below(unit.len());
            unit[at] ^= 1 << dice.below(8);
        }
        _ => {}
    }
    unit
}

/// Captions, parts that open and never finish, styles sent again with other bytes, damage in a half of it.
fn hostile(desks: usize, full: bool) -> Load {
    let mut dice = Dice(2026);
    let parts = payloads(ASCII, 60, 30);
    let whole = payloads(ASCII, 40, 100).remove(0);
    let style = |n: usize| vec![5, 0, 5, (n % 128) as u8, b'x', (n % 3) as u8];
    let round = (0..MIX)
        .map(|_| {
            let unit = match dice.below(4) {
                0 => whole.clone(),
                1 => opening(),
                2 => parts[dice.below(parts.len())].clone(),
                _ => style(dice.below(400)),
            };
            Call {
                desk: dice.below(desks),
                after: Some(dice.below(MIX / 4) as u32),
                unit: damaged(&mut dice, unit),
            }
        })
        .collect();
    load(
        "hostile mix".to_string(),
        desks,
        full,
        round,
        MIX as u32 / 4,
    )
}

/// All that is measured.
pub fn loads() -> Vec<Load> {
    let tables = [(1, false), (1, true), (8, false), (8, true)];
    let mut all = Vec::new();
    for (desks, full) in tables {
        all.extend([20, 200, 1024].map(|len| whole(ASCII, len, desks, full)));
        for count in [2, 15] {
            all.extend([false, true].map(|back| parts(ASCII, count, back, desks, full)));
        }
        all.push(hostile(desks, full));
    }
    for text in [GREEK, QUOTES] {
        all.push(whole(text, 200, 1, false));
        all.push(parts(text, 2, false, 1, false));
    }
    all.extend([(0, 1), (3, 1), (1, 8), (3, 8)].map(|(open, desks)| short_parts(open, desks)));
    all.extend([6, 7, 9, 18].map(|number| refused(number, 1)));
    all.extend([6, 7, 8, 9, 18].map(|number| refused(number, 8)));
    all
}

#[cfg(test)]
mod tests {
    use super::*;
    use second::{Outcome, Second};

    #[test]
    fn units_are_as_the_names_say() {
        for load in loads() {
            let words: Vec<_> = load.name.split_whitespace().collect();
            let number = |word: &str| word.parse::<usize>().expect("a number");
            match words[..] {
                ["whole", len, ..] => {
                    let unit = load.bytes() / load.round.len();
                    assert_eq!(unit, number(len) + 9, "{}", load.name);
                }
                ["short", "parts", ..] => assert_eq!(load.bytes(), 2 * 14, "{}", load.name),
                [count, "parts", ..] => {
                    assert_eq!(load.round.len(), number(count), "{}", load.name);
                    assert_eq!(load.bytes(), 900 + 10 * number(count), "{}", load.name);
                }
                ["part", "refused", ..] => assert_eq!(load.bytes(), 11, "{}", load.name),
                _ => assert_eq!(load.round.len(), MIX, "{}", load.name),
            }
        }
    }

    /// The relay that the load asks for before its rounds.
    fn prepared(load: &Load) -> Second {
        let mut relay = Second::set_up(load.desks).expect("1 to 8 desks");
        for call in &load.before {
            relay.receive(call.desk, call.time(0), &call.unit, &mut [0; 1024]);
        }
        relay
    }

    #[test]
    fn tables_are_as_the_names_say() {
        for load in loads() {
            let open: usize = prepared(&load).counts().open.iter().sum();
            let left = 4 * load.desks - open;
            match load.name.split_whitespace().next_back() {
                Some("full") => assert!(left <= 1, "{}", load.name),
                _ => assert_eq!(open, 0, "{}", load.name),
            }
        }
    }

    /// What the second relay answers in five rounds.
    fn answers(load: &Load) -> Vec<Outcome> {
        let mut relay = prepared(load);
        let mut answers = Vec::new();
        for round in 0..5 {
            for call in &load.round {
                let time = call.time(round * load.span);
                let answer = relay.receive(call.desk, time, &call.unit, &mut [0; 1024]);
                answers.push(answer.outcome);
            }
        }
        answers
    }

    #[test]
    fn every_round_goes_as_the_name_says() {
        for load in loads() {
            let words: Vec<_> = load.name.split_whitespace().collect();
            let went_so = match words[..] {
                ["short", _, _, open, ..] => {
                    let pair = |two: &[_]| matches!(two, [Outcome::Kept(1), Outcome::Joined(_)]);
                    answers(&load).chunks(2).all(pair)
                        && prepared(&load).counts().open[0].to_string() == open
                }
                [_, "refused", number, ..] => {
                    let refused = Outcome::Refused(number.parse().expect("a number"));
                    answers(&load).iter().all(|answer| *answer == refused)
                }
                _ => continue,
            };
            assert!(went_so, "{}", load.name);
        }
    }
}
