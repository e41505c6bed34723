//! Mistakes about a running time that is unknown, or ought to be.

use super::{assert_found, found, rivals, Sender, Wrong, NONE};
use crate::call::Call;
use crate::comparison::compare;
use crate::random::Random;
use crate::tally::Tally;
use crate::{generator, log};
use second::{Answer, Outcome, Second};

const ZERO_ADDS: u8 = 35;
const KEPT_STAYS: u8 = 36;
const REPEAT_STAYS: u8 = 37;
const REFUSED_STAYS: u8 = 38;
const EARLY_PART_LOSES: u8 = 39;
const JOINING_LOSES: u8 = 40;
const FIELDS_LOSE: u8 = 41;
const STRINGS_LOSE: u8 = 42;
const UNFINISHED: u8 = 43;
const SDUR_TELLS: u8 = 44;
const STYLE_TELLS: u8 = 45;
const LATE: u8 = 46;
const TIME_0: u8 = 47;
const STORED: u8 = 48;
const STYLES_UNTIMED: u8 = 49;
const SKIPPED_UNTIMED: u8 = 50;
const UNTIMED_BEFORE_FIELDS: u8 = 51;
const UNTIMED_BEFORE_STRINGS: u8 = 52;

/// SDUR of a text unit, as far as it is there.
fn sdur(unit: &[u8]) -> Option<u32> {
    match unit {
        [first, _, _, _, a, b, c, ..] if matches!(first & 7, 1..=4) => {
            Some(u32::from_be_bytes([0, *a, *b, *c]))
        }
        _ => None,
    }
}

impl<const MISTAKE: u8> Wrong<MISTAKE> {
    /// What the second relay answers, with the mistake where it is one about times.
    pub fn receive_mistimed(&mut self, sender: Sender, rest: &[u8], out: &mut [u8]) -> Answer {
        let before = (MISTAKE == UNFINISHED).then(|| self.second.clone());
        let right = self.second.receive(sender.0, sender.1, rest, out);
        let unit = &rest[..right.used];
        let Some(time) = sender.1 else {
            return self.untimed(sender.0, unit, out, right);
        };
        if let (Some(before), Outcome::Whole(_), Some(0)) = (before, &right.outcome, sdur(unit)) {
            self.second = before;
        }
        let next = match Self::loses(unit, &right) {
            true => None,
            false => right.next.or(Some(time)),
        };
        Answer { next, ..right }
    }

    /// Whether the time is unknown behind a unit at a known time.
    fn loses(unit: &[u8], right: &Answer) -> bool {
        match (MISTAKE, &right.outcome) {
            (ZERO_ADDS, _) => false,
            (KEPT_STAYS, Outcome::Kept(_)) => false,
            (REPEAT_STAYS, Outcome::Repeat) => false,
            (REFUSED_STAYS, Outcome::Refused(_)) => false,
            (EARLY_PART_LOSES, Outcome::Kept(_)) => sdur(unit) == Some(0),
            (JOINING_LOSES, Outcome::Joined(_)) => sdur(unit) == Some(0),
            (FIELDS_LOSE, Outcome::Refused(4)) => sdur(unit) == Some(0),
            (STRINGS_LOSE, Outcome::Refused(17)) => sdur(unit) == Some(0),
            _ => right.next.is_none(),
        }
    }

    /// What is answered at an unknown time.
    fn untimed(&mut self, desk: usize, unit: &[u8], out: &mut [u8], right: Answer) -> Answer {
        let other = |number| Answer {
            outcome: Outcome::Refused(number),
            ..right.clone()
        };
        let told = |next| Answer {
            next,
            ..right.clone()
        };
        match (MISTAKE, &right.outcome) {
            (SDUR_TELLS, Outcome::Refused(18)) => told(sdur(unit)),
            (STYLE_TELLS, Outcome::Described) => told(Some(0)),
            (LATE, Outcome::Refused(18)) => other(6),
            (TIME_0, Outcome::Refused(18)) => Answer {
                next: None,
                ..self.second.receive(desk, Some(0), unit, out)
            },
            (STORED, Outcome::Refused(18)) => {
                self.second.receive(desk, Some(0), unit, &mut [0; 1024]);
                right
            }
            (STYLES_UNTIMED, Outcome::Described) => other(18),
            (SKIPPED_UNTIMED, Outcome::Skipped(_)) => other(18),
            (UNTIMED_BEFORE_FIELDS, Outcome::Refused(4)) => other(18),
            (UNTIMED_BEFORE_STRINGS, Outcome::Refused(17)) => other(18),
            _ => right,
        }
    }
}

/// Finds the mistake, also in the third place, by a unit whose time is unknown before it or behind
/// it.
fn assert_mistimed<const MISTAKE: u8>() {
    assert_found::<MISTAKE>("receive");
    let what = rivals::<MISTAKE>();
    assert!(what.starts_with("unit at "), "{what}");
    assert!(what.contains(", rival says "), "{what}");
    assert!(what.contains("next: None"), "{what}");
}

#[test]
fn mistakes_about_what_makes_the_time_unknown_are_found() {
    assert_mistimed::<ZERO_ADDS>();
    assert_mistimed::<KEPT_STAYS>();
    assert_mistimed::<REPEAT_STAYS>();
    assert_mistimed::<REFUSED_STAYS>();
    assert_mistimed::<EARLY_PART_LOSES>();
    assert_mistimed::<JOINING_LOSES>();
    assert_mistimed::<FIELDS_LOSE>();
    assert_mistimed::<STRINGS_LOSE>();
    assert_mistimed::<UNFINISHED>();
}

#[test]
fn mistakes_at_an_unknown_time_are_found() {
    assert_mistimed::<SDUR_TELLS>();
    assert_mistimed::<STYLE_TELLS>();
    assert_mistimed::<LATE>();
    assert_mistimed::<TIME_0>();
    assert_mistimed::<STYLES_UNTIMED>();
    assert_mistimed::<SKIPPED_UNTIMED>();
    assert_mistimed::<UNTIMED_BEFORE_FIELDS>();
    assert_mistimed::<UNTIMED_BEFORE_STRINGS>();
    let what = found::<LATE>().difference.what;
    assert!(what.contains(", time ?: "), "{what}");
}

#[test]
fn what_18_stores_is_found() {
    assert_found::<STORED>("receive");
    assert!(rivals::<STORED>().contains(", rival says "));
}

#[test]
fn payloads_begin_at_an_unknown_time_and_pass_into_it() {
    let mut random = Random::new(3);
    let mut runs = (0..20).map(|_| generator::run(&mut random));
    let begins = |call: &Call| matches!(call, Call::Receive { time: None, .. });
    assert!(runs.any(|run| run.calls.iter().any(begins)));
    let mut tally = Tally::default();
    let compared = compare::<Wrong<NONE>, Second, Second>(3, 20_000, &mut tally);
    assert!(compared.is_ok());
    for name in ["known", "lost", "unknown"] {
        let tally = tally.to_string();
        assert!(tally.contains(&format!("time      {name} ")), "{tally}");
    }
}

#[test]
fn an_unknown_time_is_logged_as_a_question_mark() {
    let call = Call::Receive {
        desk: 3,
        time: None,
        payload: vec![6, 0, 2],
        output: 1024,
    };
    assert_eq!(log::line(&call), "receive 3 ? 060002");
}
