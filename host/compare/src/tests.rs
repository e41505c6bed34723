//! Opinions that are wrong on purpose have to be found out.

mod times;

use crate::call::Call;
use crate::comparison::{compare, Found};
use crate::log;
use crate::opinion::{Caption, Opinion, Tools, Written};
use crate::tally::Tally;
use second::{Answer, Counts, Lent, Outcome, Second, Step, MOST_DESKS};
use std::collections::HashMap;

const SET_UP: u8 = 0;
const ARRIVAL_ORDER: u8 = 1;
const FORGETS_LATE: u8 = 2;
const GIVE_UP: u8 = 3;
const LOOK: u8 = 4;
const WRITE: u8 = 5;
const DESCRIBE: u8 = 6;
const CHECK: u8 = 7;
const STEP: u8 = 8;
const HEAD: u8 = 9;
const TOUCHES: u8 = 10;
const WHOLE_UNREAD: u8 = 11;
const PARTS_UNREAD: u8 = 12;
const HALF_UNITS: u8 = 13;
const OTHER_ENCODING: u8 = 14;
const ADDS_TIME: u8 = 15;
const LATE_FIRST: u8 = 16;
const CONFLICT_FIRST: u8 = 17;
const SIZE_FIRST: u8 = 18;
const MODIFIERS_READ: u8 = 19;
const BOXES_READ: u8 = 20;
const STYLES_READ: u8 = 21;
const BEFORE_FIELDS: u8 = 22;
const JOINED_ONLY: u8 = 23;
const SHORT_STRING: u8 = 24;
const FRESH_COUNT: u8 = 25;
const REFUSED_COUNTS: u8 = 26;
const JOINED_COUNTS: u8 = 27;
const SPOILED_COUNTS: u8 = 28;
const GIVEN_UP_COUNTS: u8 = 29;
const ONE_PART_COUNTS: u8 = 30;
const SECOND_IS_COMMON: u8 = 31;
const COMMON_STAYS: u8 = 32;
const NEXT_DESK: u8 = 33;
const NONE: u8 = 34;

/// Who sends a unit: a desk, and a running time that may be unknown.
type Sender = (usize, Option<u32>);

/// The second relay with one mistake.
struct Wrong<const MISTAKE: u8> {
    second: Second,
    arrived: HashMap<Sender, Vec<u8>>,
    /// Whether it is lent memory that is no relay's, and refuses all by 1.
    lent_other: bool,
    /// How many samples of each desk are counted that are not open.
    miscounted: [usize; MOST_DESKS],
    /// The highest common use so far.
    most_common: usize,
}

impl<const MISTAKE: u8> Wrong<MISTAKE> {
    /// Lays the parts of a joined sample down as they came.
    fn lay_as_arrived(&mut self, sender: Sender, rest: &[u8], out: &mut [u8], answer: &Answer) {
        let start = if rest.first().is_some_and(|first| first & 7 == 2) {
            10
        } else {
            7
        };
        let data = rest.get(start..answer.used).unwrap_or_default();
        match answer.outcome {
            Outcome::Kept(_) => self.arrived.entry(sender).or_default().extend(data),
            Outcome::Joined(_) => {
                let mut sample = self.arrived.remove(&sender).unwrap_or_default();
                sample.extend(data);
                out[..sample.len()].copy_from_slice(&sample);
            }
            _ => {}
        }
    }

    /// Reads strings of TYPE 1 and 2 in the encoding that U does not say.
    fn receive_otherwise(&mut self, sender: Sender, rest: &[u8], out: &mut [u8]) -> Answer {
        let mut rest = rest.to_vec();
        if rest.first().is_some_and(|first| matches!(first & 7, 1 | 2)) {
            rest[0] ^= 0x80;
        }
        let mut answer = self.second.receive(sender.0, sender.1, &rest, out);
        if let Outcome::Whole(facts) | Outcome::Joined(facts) = &mut answer.outcome {
            facts.u ^= 1;
        }
        answer
    }

    /// What is answered in place of 17, where this mistake makes a difference to it.
    fn misread(&mut self, sender: Sender, unit: &[u8], out: &mut [u8]) -> Option<Answer> {
        let good = with_zeros(unit);
        let heard =
            |relay: &mut Second, out: &mut [u8]| relay.receive(sender.0, sender.1, &good, out);
        let would_be = heard(&mut self.second.clone(), &mut [0; 1024]);
        let lets_through = match MISTAKE {
            WHOLE_UNREAD => unit[0] & 7 == 1,
            PARTS_UNREAD => unit[0] & 7 == 2,
            HALF_UNITS => unit[0] >> 7 == 1 && string(unit).len() % 2 == 1,
            LATE_FIRST => would_be.outcome == Outcome::Refused(6),
            CONFLICT_FIRST => would_be.outcome == Outcome::Refused(7),
            SIZE_FIRST => would_be.outcome == Outcome::Refused(5),
            // Until a difference is found no ill-formed part is kept, so one that would join is 17.
            JOINED_ONLY => matches!(would_be.outcome, Outcome::Kept(_)),
            _ => false,
        };
        if MISTAKE == ADDS_TIME {
            let outcome = Outcome::Refused(17);
            return Some(Answer {
                outcome,
                ..would_be
            });
        }
        let mut answer = lets_through.then(|| heard(&mut self.second, out))?;
        if let Outcome::Whole(facts) = &mut answer.outcome {
            facts.u = unit[0] >> 7;
            out[..facts.sample].copy_from_slice(&unit[9..]);
        }
        Some(answer)
    }

    /// 17 for what is not to be looked at, where this mistake looks at it.
    fn overread(&self, sender: Sender, rest: &[u8], out: &[u8]) -> Option<Answer> {
        let mut relay = self.second.clone();
        let right = relay.receive(sender.0, sender.1, rest, &mut out.to_vec());
        let unit = &rest[..right.used];
        let kind = unit.first()? & 7;
        let looked_at = match (MISTAKE, right.outcome) {
            (BEFORE_FIELDS, Outcome::Refused(4)) => string(unit),
            (_, Outcome::Refused(3 | 4)) => &[],
            (MODIFIERS_READ, _) if kind == 1 => &unit[9..],
            (BOXES_READ, _) if matches!(kind, 3 | 4) => &unit[7..],
            (STYLES_READ, _) if kind == 5 => &unit[4..],
            _ => &[],
        };
        let u = usize::from(unit[0] >> 7);
        let ill_formed = !second::is_well_formed(u, looked_at);
        ill_formed.then_some(Answer {
            used: unit.len(),
            next: sender.1,
            outcome: Outcome::Refused(17),
        })
    }

    /// Counts after a unit, where this mistake counts a sample that is not open.
    fn count(&mut self, desk: usize, unit: &[u8], outcome: &Outcome) {
        let counts = match (MISTAKE, outcome) {
            (REFUSED_COUNTS, Outcome::Refused(8 | 9)) => true,
            (JOINED_COUNTS, Outcome::Joined(_)) => unit[3] >> 4 > 1,
            (SPOILED_COUNTS, Outcome::Refused(10)) => unit[3] >> 4 > 1,
            (ONE_PART_COUNTS, Outcome::Joined(_)) => unit[3] >> 4 == 1,
            _ => false,
        };
        if counts {
            self.miscounted[desk] += 1;
        }
        self.most_common = self.most_common.max(self.second.counts().common);
    }
}

/// The string of a TYPE 1 or 2 unit, as far as it is there; nothing of any other.
fn string(unit: &[u8]) -> &[u8] {
    match unit {
        [first, _, _, _, _, _, _, high, low, data @ ..] if first & 7 == 1 => {
            let tlen = usize::from(u16::from_be_bytes([*high, *low]));
            &data[..tlen.min(data.len())]
        }
        [first, ..] if first & 7 == 2 => unit.get(10..).unwrap_or_default(),
        _ => &[],
    }
}

/// The same unit with zeros of UTF-8 for a string, which are well-formed.
fn with_zeros(unit: &[u8]) -> Vec<u8> {
    let mut good = unit.to_vec();
    good[0] &= 0x7F;
    let start = if unit[0] & 7 == 1 { 9 } else { 10 };
    good[start..][..string(unit).len()].fill(0);
    good
}

impl<const MISTAKE: u8> Opinion for Wrong<MISTAKE> {
    fn set_up(n: usize) -> Result<Self, u8> {
        let n = if MISTAKE == SET_UP && n == 9 { 8 } else { n };
        let second = Second::set_up(n)?;
        Ok(Wrong {
            second,
            arrived: HashMap::new(),
            lent_other: false,
            miscounted: [usize::from(MISTAKE == FRESH_COUNT); MOST_DESKS],
            most_common: 0,
        })
    }

    fn receive(&mut self, desk: usize, time: Option<u32>, rest: &[u8], out: &mut [u8]) -> Answer {
        let desk = if self.lent_other { usize::MAX } else { desk };
        if let MODIFIERS_READ | BOXES_READ | STYLES_READ | BEFORE_FIELDS = MISTAKE {
            if let Some(answer) = self.overread((desk, time), rest, out) {
                return answer;
            }
        }
        let mut answer = match MISTAKE {
            OTHER_ENCODING => self.receive_otherwise((desk, time), rest, out),
            _ => self.receive_mistimed((desk, time), rest, out),
        };
        if answer.outcome == Outcome::Refused(17) {
            let misread = self.misread((desk, time), &rest[..answer.used], out);
            answer = misread.unwrap_or(answer);
        }
        if MISTAKE == FORGETS_LATE && answer.outcome == Outcome::Refused(6) {
            answer.outcome = Outcome::Repeat;
        }
        if MISTAKE == ARRIVAL_ORDER {
            self.lay_as_arrived((desk, time), rest, out, &answer);
        }
        if let (SHORT_STRING, Outcome::Joined(facts)) = (MISTAKE, &mut answer.outcome) {
            facts.string -= 1;
        }
        self.count(desk, rest, &answer.outcome);
        answer
    }

    fn give_up(&mut self, desk: usize, time: u32) -> Result<(), u8> {
        let desk = if self.lent_other { usize::MAX } else { desk };
        let answer = self.second.give_up(desk, time);
        if MISTAKE == GIVE_UP && answer == Err(11) {
            return Ok(());
        }
        if MISTAKE == GIVEN_UP_COUNTS && answer == Ok(()) {
            self.miscounted[desk] += 1;
        }
        answer
    }

    fn look(&self, desk: usize, index: usize, book: &[u8]) -> Vec<u8> {
        let desk = if self.lent_other { usize::MAX } else { desk };
        let mut shown = self.second.look(desk, index, book);
        if MISTAKE == LOOK {
            shown.truncate(255);
        }
        shown
    }

    fn counts(&self) -> Counts {
        let mut open = self.second.counts().open;
        for (open, more) in open.iter_mut().zip(self.miscounted) {
            *open += more;
        }
        let own = if MISTAKE == SECOND_IS_COMMON { 1 } else { 2 };
        let mut common = open.iter().map(|open| open.saturating_sub(own)).sum();
        match MISTAKE {
            NEXT_DESK => open.rotate_right(1),
            COMMON_STAYS => common = self.most_common,
            _ => {}
        }
        Counts { open, common }
    }

    fn lending<T>(&mut self, _: Lent, call: impl FnOnce(&mut Self) -> T) -> Option<(T, bool)> {
        self.lent_other = MISTAKE != HEAD;
        let answer = call(self);
        self.lent_other = false;
        Some((answer, MISTAKE != TOUCHES))
    }
}

impl<const MISTAKE: u8> Tools for Wrong<MISTAKE> {
    fn write(caption: &Caption, m: usize, k: usize, out: &mut [u8]) -> Written {
        let (length, count) = <Second as Tools>::write(caption, m, k, out)?;
        if let (WRITE, Some(behind)) = (MISTAKE, out.get_mut(length)) {
            *behind = behind.wrapping_add(1);
        }
        Ok((length, count))
    }

    fn describe(sidx: usize, d: &[u8], m: usize, k: usize, out: &mut [u8]) -> Written {
        let k = if MISTAKE == DESCRIBE { 1 } else { k };
        second::describe(sidx, d, m, k, out)
    }

    fn check(book: &[u8]) -> Result<usize, usize> {
        let whole = book.len() - book.len() % 260;
        second::check(if MISTAKE == CHECK {
            &book[..whole]
        } else {
            book
        })
    }

    fn step(modifiers: &[u8], at: usize) -> Step<'_> {
        if MISTAKE == STEP && at > modifiers.len() {
            return Step::End;
        }
        second::step(modifiers, at)
    }
}

/// The first difference between one with a mistake and the second relay.
fn found<const MISTAKE: u8>() -> Found {
    let mut tally = Tally::default();
    let compared = compare::<Wrong<MISTAKE>, Second, Second>(7, 100_000, &mut tally);
    compared.expect_err("the mistake is found")
}

/// What is said of a mistake that all three make.
fn everyones<const MISTAKE: u8>() -> String {
    let mut tally = Tally::default();
    let compared =
        compare::<Wrong<MISTAKE>, Wrong<MISTAKE>, Wrong<MISTAKE>>(7, 100_000, &mut tally);
    compared.expect_err("the mistake is found").difference.what
}

/// What is said of a mistake in the third place.
fn rivals<const MISTAKE: u8>() -> String {
    let mut tally = Tally::default();
    let compared = compare::<Second, Second, Wrong<MISTAKE>>(7, 100_000, &mut tally);
    compared.expect_err("the mistake is found").difference.what
}

fn is_hex(word: &str) -> bool {
    let digits = |word: &str| word.bytes().all(|byte| byte.is_ascii_hexdigit());
    word == "-" || !word.is_empty() && word.len().is_multiple_of(2) && digits(word)
}

/// What words follow the name of a call: `n` a number, `t` a number or `?`, `h` hexadecimal digits.
fn form(name: &str) -> &'static str {
    match name {
        "set-up" => "n",
        "receive" => "nth",
        "look" => "nnh",
        "give-up" => "nn",
        "write" => "nnnhhnn",
        "describe" => "nhnn",
        "book" => "h",
        "walk" => "hn",
        _ => panic!("{name} is no call"),
    }
}

fn assert_well_formed(line: &str) {
    let mut words = line.split(' ');
    let form = form(words.next().unwrap_or_default());
    let words: Vec<_> = words.collect();
    assert_eq!(words.len(), form.len(), "{line}");
    for (word, letter) in words.iter().zip(form.chars()) {
        let good = match letter {
            't' if *word == "?" => true,
            'n' | 't' => word.parse::<usize>().is_ok(),
            _ => is_hex(word),
        };
        assert!(good, "{word} in {line}");
    }
}

/// Finds the mistake and checks its log, whose last call is `last`.
fn assert_found<const MISTAKE: u8>(last: &str) {
    let found = found::<MISTAKE>();
    let log = log::text(&found.run, &found.difference);
    let (comments, calls): (Vec<_>, Vec<_>) = log.lines().partition(|line| line.starts_with('#'));
    calls.iter().for_each(|call| assert_well_formed(call));
    assert_eq!(calls[0], format!("set-up {}", found.run.n));
    let call = calls.last().and_then(|line| line.split(' ').next());
    assert_eq!(call, Some(last));
    assert_eq!(comments.len() + calls.len(), found.difference.calls + 2);
    assert!(log.ends_with(&format!("# {}\n", found.difference.what)));
}

#[test]
fn every_mistake_is_found_and_logged() {
    assert_found::<SET_UP>("set-up");
    assert_found::<ARRIVAL_ORDER>("receive");
    assert_found::<FORGETS_LATE>("receive");
    assert_found::<GIVE_UP>("give-up");
    assert_found::<LOOK>("look");
    assert_found::<WRITE>("write");
    assert_found::<DESCRIBE>("describe");
    assert_found::<CHECK>("book");
    assert_found::<STEP>("walk");
}

#[test]
fn mistakes_about_strings_are_found_by_a_17_and_logged() {
    assert_found::<WHOLE_UNREAD>("receive");
    assert_found::<PARTS_UNREAD>("receive");
    assert_found::<HALF_UNITS>("receive");
    assert_found::<OTHER_ENCODING>("receive");
    assert_found::<ADDS_TIME>("receive");
    assert_found::<LATE_FIRST>("receive");
    assert_found::<CONFLICT_FIRST>("receive");
    assert_found::<SIZE_FIRST>("receive");
    assert_found::<MODIFIERS_READ>("receive");
    assert_found::<BOXES_READ>("receive");
    assert_found::<STYLES_READ>("receive");
    assert_found::<BEFORE_FIELDS>("receive");
    assert_found::<JOINED_ONLY>("receive");
    let mistakes = [
        rivals::<WHOLE_UNREAD>(),
        rivals::<PARTS_UNREAD>(),
        rivals::<HALF_UNITS>(),
        rivals::<OTHER_ENCODING>(),
        rivals::<ADDS_TIME>(),
        rivals::<LATE_FIRST>(),
        rivals::<CONFLICT_FIRST>(),
        rivals::<SIZE_FIRST>(),
        rivals::<MODIFIERS_READ>(),
        rivals::<BOXES_READ>(),
        rivals::<STYLES_READ>(),
        rivals::<BEFORE_FIELDS>(),
        rivals::<JOINED_ONLY>(),
    ];
    for what in mistakes {
        assert!(what.contains(", rival says "), "{what}");
        assert!(what.contains("Refused(17)"), "{what}");
    }
}

#[test]
fn an_ill_formed_string_is_found_where_all_hand_it_out() {
    let mistakes = [
        everyones::<WHOLE_UNREAD>(),
        everyones::<OTHER_ENCODING>(),
        everyones::<SHORT_STRING>(),
    ];
    for what in mistakes {
        assert!(what.starts_with("well-formed string of "), "{what}");
    }
}

/// Finds the mistake by what is counted, also in the third place; its log's last call is `last`.
fn assert_miscounted<const MISTAKE: u8>(last: &str) {
    assert_found::<MISTAKE>(last);
    let told = [
        (found::<MISTAKE>().difference.what, ", second says "),
        (rivals::<MISTAKE>(), ", rival says "),
    ];
    for (what, other) in told {
        assert!(what.starts_with("counts: the relay says "), "{what}");
        assert!(what.contains(other), "{what}");
    }
}

#[test]
fn mistakes_in_what_is_counted_are_found_and_logged() {
    assert_miscounted::<FRESH_COUNT>("set-up");
    assert_miscounted::<REFUSED_COUNTS>("receive");
    assert_miscounted::<JOINED_COUNTS>("receive");
    assert_miscounted::<SPOILED_COUNTS>("receive");
    assert_miscounted::<GIVEN_UP_COUNTS>("give-up");
    assert_miscounted::<ONE_PART_COUNTS>("receive");
    assert_miscounted::<SECOND_IS_COMMON>("receive");
    assert_miscounted::<COMMON_STAYS>("receive");
    assert_miscounted::<NEXT_DESK>("receive");
}

/// The sum of the numbers in the lines of a tally that begin so.
fn summed(tally: &Tally, begin: &[&str]) -> u64 {
    let tally = tally.to_string();
    let lines = tally.lines();
    let lines = lines.filter(|line| begin.iter().any(|begin| line.starts_with(begin)));
    let number = |line: &str| line.split(' ').next_back()?.parse::<u64>().ok();
    lines.filter_map(number).sum()
}

#[test]
fn counts_are_held_after_set_up_and_after_every_call_on_the_relays() {
    let mut tally = Tally::default();
    let compared = compare::<Wrong<NONE>, Second, Second>(3, 20_000, &mut tally);
    assert!(compared.is_ok());
    let calls = [
        "set-up    done",
        "receive ",
        "give-up ",
        "look ",
        "lent      refused",
        "lent      empty",
    ];
    for call in calls {
        assert_ne!(summed(&tally, &[call]), 0, "{call}");
    }
    let held = summed(&tally, &["counts    held"]);
    assert_eq!(held, summed(&tally, &calls));
}

#[test]
fn mistakes_with_other_memory_are_found_and_logged_as_comments() {
    for found in [found::<HEAD>(), found::<TOUCHES>()] {
        let log = log::text(&found.run, &found.difference);
        let last = log.lines().rev().nth(1).expect("the call stands there");
        assert!(last.starts_with("# head "), "{last}");
        let call = &found.run.calls[found.difference.calls - 1];
        assert!(matches!(call, Call::Lent { .. }));
    }
}

#[test]
fn mistakes_in_the_third_place_are_found() {
    let mistakes = [
        rivals::<SET_UP>(),
        rivals::<ARRIVAL_ORDER>(),
        rivals::<FORGETS_LATE>(),
        rivals::<GIVE_UP>(),
        rivals::<LOOK>(),
    ];
    for what in mistakes {
        assert!(what.contains(", rival says "), "{what}");
    }
}

#[test]
fn an_opinion_agrees_with_itself_and_the_same_seed_gives_the_same_calls() {
    let tallies = [3, 3, 4].map(|seed| {
        let mut tally = Tally::default();
        let compared = compare::<Wrong<NONE>, Second, Second>(seed, 20_000, &mut tally);
        assert!(compared.is_ok());
        assert_eq!(tally.calls(), 20_000);
        tally.to_string()
    });
    assert_eq!(tallies[0], tallies[1]);
    assert_ne!(tallies[0], tallies[2]);
}

#[test]
fn a_call_with_too_little_lent_is_logged_as_a_comment() {
    let found = found::<FORGETS_LATE>();
    for call in &found.run.calls {
        let less = call.short_output().is_some() || matches!(call, Call::Lent { .. });
        let line = log::line(call);
        assert_eq!(line.starts_with("# "), less);
        assert!(line.ends_with(&call.to_string()));
    }
}
