//! A line of unknown length: SDUR 0 makes the running time unknown, and there text units are 18.

use spindlefig::{Outcome, Refusal, Relay, OUTPUT};

/// A whole sample, and both parts of a sample of two letters; SDUR is 0.
const LINE: &[u8] = b"\x01\x00\x09\x80\x00\x00\x00\x00\x01A";
const FIRST: &[u8] = b"\x02\x00\x0a\x21\x00\x00\x00\x80\x00\x02A";
const LAST: &[u8] = b"\x02\x00\x0a\x22\x00\x00\x00\x80\x00\x02B";

const STYLE: &[u8] = b"\x05\x00\x04\x01a";

/// The running time behind a unit of desk 0, and what became of it.
fn heard(relay: &mut Relay, time: Option<u32>, unit: &[u8]) -> (Option<u32>, Outcome) {
    let answer = relay.receive(0, time, unit, &mut [0; OUTPUT]);
    assert_eq!(answer.used, unit.len(), "{unit:02x?}");
    (answer.next, answer.outcome)
}

/// The running time behind a line that is handed out.
fn shown(relay: &mut Relay, time: u32, unit: &[u8]) -> Option<u32> {
    let (next, outcome) = heard(relay, Some(time), unit);
    assert_eq!(outcome.facts().map(|facts| facts.time), Some(time));
    next
}

fn refused(refusal: Refusal) -> Outcome {
    Outcome::Refused(refusal)
}

#[test]
fn the_worked_payload() {
    let units: [&[u8]; 5] = [
        LINE,
        b"\x01\x00\x08\x80\x00\x00\x05\x00\x00",
        STYLE,
        b"\x06\x00\x02",
        b"\x01",
    ];
    let mut relay = Relay::set_up(1).unwrap();
    let payload = units.concat();
    let heard: Vec<_> = relay.units(0, 0, &payload).collect();
    let times: Vec<_> = heard.iter().map(|unit| unit.time).collect();
    assert_eq!(times, [Some(0), None, None, None, None]);
    assert!(heard.iter().all(|unit| unit.answer.next.is_none()));
    let places: Vec<_> = heard.iter().map(|unit| unit.at).collect();
    assert_eq!(places, [0, 10, 19, 24, 27]);
    let facts = heard[0].answer.outcome.facts().unwrap();
    assert_eq!((facts.time, facts.sdur, facts.sample), (0, 0, 1));
    assert_eq!(heard[0].sample, b"A");
    let others: Vec<_> = heard[1..].iter().map(|unit| unit.answer.outcome).collect();
    let expected = [
        refused(Refusal::Untimed),
        Outcome::Described,
        Outcome::Skipped(6),
        refused(Refusal::Frame),
    ];
    assert_eq!(others, expected);
}

#[test]
fn a_second_packet_of_the_same_time_is_late_and_the_time_unknown_again() {
    let mut relay = Relay::set_up(1).unwrap();
    assert_eq!(shown(&mut relay, 7, LINE), None);
    for again in [LINE, LAST] {
        let late = (None, refused(Refusal::Late));
        assert_eq!(heard(&mut relay, Some(7), again), late);
    }
}

#[test]
fn a_part_that_is_not_the_last_leaves_the_time_even_if_it_joins() {
    let mut relay = Relay::set_up(1).unwrap();
    let kept = Outcome::Kept(1);
    assert_eq!(heard(&mut relay, Some(7), FIRST), (Some(7), kept));
    assert_eq!(
        heard(&mut relay, Some(7), FIRST),
        (Some(7), Outcome::Repeat)
    );
    assert_eq!(shown(&mut relay, 7, LAST), None);
    assert_eq!(heard(&mut relay, Some(8), LAST), (None, kept));
    assert_eq!(heard(&mut relay, Some(8), LAST), (None, Outcome::Repeat));
    assert_eq!(shown(&mut relay, 8, FIRST), Some(8));
}

#[test]
fn the_time_is_unknown_after_a_line_that_5_7_9_or_10_refuses() {
    let long = [&b"\x01\x04\x09\x80\x00\x00\x00\x04\x01"[..], &[b'a'; 1025]].concat();
    let other = b"\x02\x00\x0a\x22\x00\x00\x00\x80\x00\x03B";
    let spoiling = b"\x04\x00\x07\x22\x00\x00\x00B";
    let mut relay = Relay::set_up(1).unwrap();
    let mut refusal = |time, unit: &[u8]| {
        let (next, outcome) = heard(&mut relay, Some(time), unit);
        assert_eq!(next, if unit == FIRST { Some(time) } else { None });
        outcome
    };
    assert_eq!(refusal(7, &long), refused(Refusal::Size));
    assert_eq!(refusal(7, FIRST), Outcome::Kept(1));
    assert_eq!(refusal(7, other), refused(Refusal::Conflict));
    assert_eq!(refusal(7, LINE), refused(Refusal::Conflict));
    assert_eq!(refusal(7, spoiling), refused(Refusal::Spoiled));
    for time in 0..4 {
        assert_eq!(refusal(time, FIRST), Outcome::Kept(1));
    }
    assert_eq!(refusal(8, LAST), refused(Refusal::Common));
}

#[test]
fn the_time_is_unknown_after_a_line_that_8_refuses() {
    let mut relay = Relay::set_up(2).unwrap();
    for time in 0..6 {
        heard(&mut relay, Some(time), FIRST);
    }
    let six = (None, refused(Refusal::Six));
    assert_eq!(heard(&mut relay, Some(7), LAST), six);
}

#[test]
fn what_3_4_and_17_refuse_leaves_a_known_time() {
    let units: [(&[u8], Refusal); 5] = [
        (b"\x01\x00\x0a\x80\x00\x00\x00\x00\x01A", Refusal::Frame),
        (b"\x01\x00\x09\xff\x00\x00\x00\x00\x01A", Refusal::Fields),
        (
            b"\x02\x00\x0a\x22\x00\x00\x00\xff\x00\x02B",
            Refusal::Fields,
        ),
        (
            b"\x01\x00\x09\x80\x00\x00\x00\x00\x01\xc3",
            Refusal::IllFormed,
        ),
        (
            b"\x02\x00\x0a\x22\x00\x00\x00\x80\x00\x02\xc3",
            Refusal::IllFormed,
        ),
    ];
    let mut relay = Relay::set_up(1).unwrap();
    for (unit, refusal) in units {
        let answer = heard(&mut relay, Some(7), unit);
        assert_eq!(answer, (Some(7), refused(refusal)), "{unit:02x?}");
    }
}

#[test]
fn an_unknown_time_is_handed_back_by_all_that_needs_none() {
    let mut relay = Relay::set_up(1).unwrap();
    let units: [(&[u8], Outcome); 9] = [
        (b"", Outcome::End),
        (b"\x01\x00", refused(Refusal::Frame)),
        (b"\x06\x00\x02", Outcome::Skipped(6)),
        (
            b"\x01\x00\x07\x80\x00\x00\x05\x00",
            refused(Refusal::Fields),
        ),
        (
            b"\x01\x00\x09\x80\x00\x00\x05\x00\x01\xc3",
            refused(Refusal::IllFormed),
        ),
        (b"\x05\x00\x04\x80a", refused(Refusal::Fields)),
        (STYLE, Outcome::Described),
        (STYLE, Outcome::Repeat),
        (b"\x05\x00\x04\x01b", refused(Refusal::Conflict)),
    ];
    for (unit, outcome) in units {
        let answer = heard(&mut relay, None, unit);
        assert_eq!(answer, (None, outcome), "{unit:02x?}");
    }
    assert_eq!(relay.lookup(0, 1, &[]), b"a");
}

#[test]
fn refusals_1_and_2_hand_an_unknown_time_back_and_use_nothing() {
    let mut relay = Relay::set_up(1).unwrap();
    let mut out = [0; OUTPUT];
    let desk = relay.receive(1, None, LINE, &mut out);
    let output = relay.receive(0, None, LINE, &mut out[1..]);
    assert_eq!(desk.outcome, refused(Refusal::Desk));
    assert_eq!(output.outcome, refused(Refusal::Output));
    for answer in [desk, output] {
        assert_eq!((answer.used, answer.next), (0, None));
    }
}

/// Each text unit is 18: its bytes are used, and the unknown time, memory and output stay.
fn assert_untimed(relay: &mut Relay) {
    let units: [&[u8]; 7] = [
        LINE,
        FIRST,
        LAST,
        b"\x01\x00\x09\x80\x00\x00\x05\x00\x01A",
        b"\x02\x00\x0a\x11\x00\x00\x05\x80\x00\x01A",
        b"\x03\x00\x07\x22\x00\x00\x05B",
        b"\x04\x00\x07\x22\x00\x00\x00B",
    ];
    let before = relay.clone();
    for unit in units {
        let mut out = [7; OUTPUT];
        let answer = relay.receive(0, None, unit, &mut out);
        assert_eq!(answer.outcome, refused(Refusal::Untimed), "{unit:02x?}");
        assert_eq!((answer.used, answer.next), (unit.len(), None));
        assert!(*relay == before && out == [7; OUTPUT], "{unit:02x?}");
    }
}

#[test]
fn text_units_at_an_unknown_time_are_18_and_change_nothing() {
    // A number in place of the unknown time could meet nothing, an open sample or a finished one.
    for time in [0, u32::MAX] {
        let mut relay = Relay::set_up(1).unwrap();
        assert_untimed(&mut relay);
        heard(&mut relay, Some(time), FIRST);
        assert_untimed(&mut relay);
        assert_eq!(shown(&mut relay, time, LAST), None);
        assert_untimed(&mut relay);
    }
}

#[test]
fn an_open_line_of_unknown_length_is_given_up_by_its_time() {
    let mut relay = Relay::set_up(1).unwrap();
    heard(&mut relay, Some(7), LAST);
    assert_eq!(relay.give_up(0, 7), Ok(()));
    let late = (None, refused(Refusal::Late));
    assert_eq!(heard(&mut relay, Some(7), LAST), late);
}
