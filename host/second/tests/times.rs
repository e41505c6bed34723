//! A line of unknown length: SDUR 0 makes the running time unknown, and there text units are 18.

use second::{Answer, Facts, Outcome, Second};

/// A whole sample, and both parts of a sample of two letters; SDUR is 0.
const LINE: &[u8] = b"\x01\x00\x09\x80\x00\x00\x00\x00\x01A";
const FIRST: &[u8] = b"\x02\x00\x0A\x21\x00\x00\x00\x80\x00\x02A";
const LAST: &[u8] = b"\x02\x00\x0A\x22\x00\x00\x00\x80\x00\x02B";

/// A TYPE 4 part in the place of `LAST`, which spoils the sample.
const SPOILING: &[u8] = b"\x04\x00\x07\x22\x00\x00\x00B";

const STYLE: &[u8] = b"\x05\x00\x04\x01a";

fn fresh(n: usize) -> Second {
    Second::set_up(n).expect("1 to 8 desks")
}

/// A unit of desk 0, at its time.
type Timed<'a> = (u32, &'a [u8]);

/// A relay that has heard these units.
fn after(units: &[Timed]) -> Second {
    let mut relay = fresh(1);
    for (time, unit) in units {
        receive(&mut relay, Some(*time), unit);
    }
    relay
}

fn receive(relay: &mut Second, time: Option<u32>, rest: &[u8]) -> Answer {
    relay.receive(0, time, rest, &mut [0; 1024])
}

/// The running time behind a unit of desk 0, and what became of it.
fn heard(relay: &mut Second, time: Option<u32>, unit: &[u8]) -> (Option<u32>, Outcome) {
    let answer = receive(relay, time, unit);
    assert_eq!(answer.used, unit.len(), "{unit:02X?}");
    (answer.next, answer.outcome)
}

fn facts(time: u32, sdur: u32, sample: usize) -> Facts {
    Facts {
        time,
        u: 0,
        sidx: 128,
        sdur,
        string: sample,
        sample,
    }
}

#[test]
fn the_worked_payload() {
    let units: [&[u8]; 5] = [
        LINE,
        b"\x01\x00\x08\x80\x00\x00\x05\x00\x00",
        STYLE,
        b"\x06\x00\x02",
        b"\x01",
    ];
    let payload = units.concat();
    let outcomes = [
        Outcome::Whole(facts(0, 0, 1)),
        Outcome::Refused(18),
        Outcome::Described,
        Outcome::Skipped(6),
        Outcome::Refused(3),
        Outcome::End,
    ];
    let mut relay = fresh(1);
    let (mut time, mut at) = (Some(0), 0);
    for outcome in outcomes {
        let answer = receive(&mut relay, time, &payload[at..]);
        assert_eq!((answer.next, answer.outcome), (None, outcome), "at {at}");
        time = answer.next;
        at += answer.used;
    }
    assert_eq!(at, payload.len());
}

#[test]
fn a_line_of_unknown_length_finishes_its_time() {
    let mut relay = after(&[(7, LINE)]);
    for again in [LINE, LAST] {
        let late = (None, Outcome::Refused(6));
        assert_eq!(heard(&mut relay, Some(7), again), late);
    }
    assert_eq!(
        heard(&mut relay, Some(7), FIRST),
        (Some(7), Outcome::Refused(6))
    );
    let joined = (None, Outcome::Joined(facts(8, 0, 2)));
    assert_eq!(heard(&mut relay, Some(8), FIRST).0, Some(8));
    assert_eq!(heard(&mut relay, Some(8), LAST), joined);
    assert_eq!(
        heard(&mut relay, Some(8), LAST),
        (None, Outcome::Refused(6))
    );
}

#[test]
fn a_part_that_is_not_the_last_leaves_the_time_even_if_it_joins() {
    let mut relay = fresh(1);
    assert_eq!(heard(&mut relay, Some(7), LAST), (None, Outcome::Kept(1)));
    assert_eq!(
        heard(&mut relay, Some(7), FIRST),
        (Some(7), Outcome::Joined(facts(7, 0, 2)))
    );
    assert_eq!(
        heard(&mut relay, Some(8), FIRST),
        (Some(8), Outcome::Kept(1))
    );
    assert_eq!(
        heard(&mut relay, Some(8), FIRST),
        (Some(8), Outcome::Repeat)
    );
    let spoiling = b"\x04\x00\x07\x21\x00\x00\x00A";
    heard(&mut relay, Some(9), LAST);
    assert_eq!(
        heard(&mut relay, Some(9), spoiling),
        (Some(9), Outcome::Refused(10))
    );
}

#[test]
fn the_time_is_unknown_whatever_becomes_of_the_line() {
    let other = b"\x02\x00\x0A\x22\x00\x00\x00\x80\x00\x03B";
    let long = [&b"\x01\x04\x09\x80\x00\x00\x00\x04\x01"[..], &[b'a'; 1025]].concat();
    let four: Vec<Timed> = (0..4).map(|time| (time, FIRST)).collect();
    let cases: [(&[Timed], &[u8], Outcome); 10] = [
        (&[], LINE, Outcome::Whole(facts(7, 0, 1))),
        (&[], LAST, Outcome::Kept(1)),
        (&[(7, LAST)], LAST, Outcome::Repeat),
        (&[(7, FIRST)], LAST, Outcome::Joined(facts(7, 0, 2))),
        (&[], &long, Outcome::Refused(5)),
        (&[(7, LINE)], LAST, Outcome::Refused(6)),
        (&[(7, FIRST)], other, Outcome::Refused(7)),
        (&[(7, FIRST)], LINE, Outcome::Refused(7)),
        (&four, LAST, Outcome::Refused(9)),
        (&[(7, FIRST)], SPOILING, Outcome::Refused(10)),
    ];
    for (before, unit, outcome) in cases {
        let answer = heard(&mut after(before), Some(7), unit);
        assert_eq!(answer, (None, outcome), "{unit:02X?}");
    }
}

#[test]
fn the_time_is_unknown_after_8_as_well() {
    let mut relay = fresh(2);
    for time in 0..6 {
        receive(&mut relay, Some(time), FIRST);
    }
    assert_eq!(
        heard(&mut relay, Some(7), LAST),
        (None, Outcome::Refused(8))
    );
}

#[test]
fn what_3_4_and_17_refuse_leaves_a_known_time() {
    let units: [(&[u8], u8); 5] = [
        (b"\x01\x00\x0A\x80\x00\x00\x00\x00\x01A", 3),
        (b"\x01\x00\x09\xFF\x00\x00\x00\x00\x01A", 4),
        (b"\x01\x00\x09\x80\x00\x00\x00\x00\x01\xC3", 17),
        (b"\x02\x00\x0A\x22\x00\x00\x00\xFF\x00\x02B", 4),
        (b"\x02\x00\x0A\x22\x00\x00\x00\x80\x00\x02\xC3", 17),
    ];
    for (unit, number) in units {
        let answer = heard(&mut fresh(1), Some(7), unit);
        assert_eq!(answer, (Some(7), Outcome::Refused(number)), "{unit:02X?}");
    }
}

#[test]
fn text_units_at_an_unknown_time_are_18_and_change_nothing() {
    let units: [&[u8]; 7] = [
        LINE,
        FIRST,
        LAST,
        b"\x01\x00\x09\x80\x00\x00\x05\x00\x01A",
        b"\x02\x00\x0A\x11\x00\x00\x05\x80\x00\x01A",
        b"\x03\x00\x07\x22\x00\x00\x05B",
        SPOILING,
    ];
    let long = [&b"\x01\x04\x09\x80\x00\x00\x05\x04\x01"[..], &[b'a'; 1025]].concat();
    // A number in place of the unknown time could meet nothing, an open sample or a finished one.
    for time in [0, u32::MAX] {
        for before in [&[][..], &[(time, FIRST)], &[(time, LINE)]] {
            let mut relay = after(before);
            let stands = relay.clone();
            for unit in units.into_iter().chain([&long[..]]) {
                let mut out = [0xEE; 1024];
                let expected = Answer {
                    used: unit.len(),
                    next: None,
                    outcome: Outcome::Refused(18),
                };
                assert_eq!(relay.receive(0, None, unit, &mut out), expected);
                assert_eq!((&relay, out), (&stands, [0xEE; 1024]), "{unit:02X?}");
            }
        }
    }
}

#[test]
fn an_unknown_time_is_handed_back_by_all_that_needs_none() {
    let mut relay = fresh(1);
    let units: [(&[u8], Outcome); 13] = [
        (b"", Outcome::End),
        (b"\x01\x00", Outcome::Refused(3)),
        (b"\x00\x00\x02", Outcome::Skipped(0)),
        (b"\x06\x00\x02", Outcome::Skipped(6)),
        (b"\x07\x00\x02", Outcome::Skipped(7)),
        (b"\x01\x00\x07\x80\x00\x00\x05\x00", Outcome::Refused(4)),
        (b"\x04\x00\x07\x23\x00\x00\x05B", Outcome::Refused(4)),
        (b"\x05\x00\x04\x80a", Outcome::Refused(4)),
        (
            b"\x01\x00\x09\x80\x00\x00\x05\x00\x01\xC3",
            Outcome::Refused(17),
        ),
        (
            b"\x02\x00\x0A\x11\x00\x00\x05\x80\x00\x01\xC3",
            Outcome::Refused(17),
        ),
        (STYLE, Outcome::Described),
        (STYLE, Outcome::Repeat),
        (b"\x05\x00\x04\x01b", Outcome::Refused(7)),
    ];
    for (unit, outcome) in units {
        let answer = heard(&mut relay, None, unit);
        assert_eq!(answer, (None, outcome), "{unit:02X?}");
    }
    let long = [&b"\x05\x01\x04\x02"[..], &[b'd'; 257]].concat();
    assert_eq!(heard(&mut relay, None, &long), (None, Outcome::Refused(5)));
    assert_eq!(relay.look(0, 1, &[]), b"a");
}

#[test]
fn refusals_1_and_2_hand_an_unknown_time_back_and_use_nothing() {
    let refused = |number| Answer {
        used: 0,
        next: None,
        outcome: Outcome::Refused(number),
    };
    let mut relay = fresh(1);
    assert_eq!(relay.receive(1, None, LINE, &mut [0; 1024]), refused(1));
    assert_eq!(relay.receive(0, None, LINE, &mut [0; 1023]), refused(2));
}

#[test]
fn every_number_is_a_time() {
    for time in [0, 1, u32::MAX] {
        let whole = (None, Outcome::Whole(facts(time, 0, 1)));
        assert_eq!(heard(&mut fresh(1), Some(time), LINE), whole);
    }
    let second = b"\x01\x00\x08\x80\x00\x00\x01\x00\x00";
    let mut relay = fresh(1);
    let (time, _) = heard(&mut relay, Some(u32::MAX), second);
    assert_eq!(time, Some(0));
    let whole = (Some(1), Outcome::Whole(facts(0, 1, 0)));
    assert_eq!(heard(&mut relay, time, second), whole);
}

#[test]
fn an_open_line_of_unknown_length_is_given_up_by_its_time() {
    let mut relay = after(&[(7, LAST)]);
    assert_eq!(relay.give_up(0, 7), Ok(()));
    assert_eq!(relay.give_up(0, 7), Err(11));
    assert_eq!(
        heard(&mut relay, Some(7), LAST),
        (None, Outcome::Refused(6))
    );
}
