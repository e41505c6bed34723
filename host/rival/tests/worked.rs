//! Cases worked by hand, and those where the rival takes another way than a plain relay.

use rival::{Answer, Facts, Outcome, Rival};

const CASE_1: &[u8] = b"\x01\x00\x0A\x80\x01\x5F\x90\x00\x02Hi";
const PART_7: &[u8] = b"\x02\x00\x0B\x21\x00\x00\x64\x80\x00\x0EHi";

fn fresh(n: usize) -> Rival {
    Rival::set_up(n).expect("1 to 8 desks")
}

fn receive(relay: &mut Rival, desk: usize, time: u32, rest: &[u8]) -> Answer {
    relay.receive(desk, Some(time), rest, &mut [0; 1024])
}

/// Part `this` of three, of `data`, of a sample of six bytes.
fn third(this: u8, data: &[u8]) -> Vec<u8> {
    let len = 9 + data.len() as u8;
    let head = [2, 0, len, 0x30 | this, 0, 0, 100, 128, 0, 6];
    [&head, data].concat()
}

#[test]
fn case_1_puts_the_sample_in_front_and_leaves_the_rest() {
    let mut out = [0xEE; 1024];
    let answer = fresh(1).receive(0, Some(1000), CASE_1, &mut out);
    let facts = Facts {
        time: 1000,
        u: 0,
        sidx: 128,
        sdur: 90000,
        string: 2,
        sample: 2,
    };
    assert_eq!((answer.used, answer.next), (11, Some(91000)));
    assert_eq!(answer.outcome, Outcome::Whole(facts));
    assert_eq!(&out[..3], b"Hi\xEE");
}

#[test]
fn parts_join_in_any_order() {
    let parts = [third(1, b"a"), third(2, b"bc"), third(3, b"def")];
    for order in [
        [0, 1, 2],
        [0, 2, 1],
        [1, 0, 2],
        [1, 2, 0],
        [2, 0, 1],
        [2, 1, 0],
    ] {
        let mut relay = fresh(1);
        let mut out = [0xEE; 1024];
        let answers = order.map(|i| relay.receive(0, Some(7), &parts[i], &mut out));
        let kept = [answers[0].outcome, answers[1].outcome];
        assert_eq!(kept, [Outcome::Kept(2), Outcome::Kept(1)], "{order:?}");
        assert!(
            matches!(answers[2].outcome, Outcome::Joined(_)),
            "{order:?}"
        );
        assert_eq!(&out[..7], b"abcdef\xEE", "{order:?}");
        let late = receive(&mut relay, 0, 7, &parts[0]);
        assert_eq!(late.outcome, Outcome::Refused(6));
    }
}

#[test]
fn time_0_is_not_finished_before_it_is() {
    let mut relay = fresh(1);
    assert!(matches!(
        receive(&mut relay, 0, 0, CASE_1).outcome,
        Outcome::Whole(_)
    ));
    assert_eq!(
        receive(&mut relay, 0, 0, CASE_1).outcome,
        Outcome::Refused(6)
    );
    for time in 1..=16 {
        receive(&mut relay, 0, time, CASE_1);
    }
    assert!(matches!(
        receive(&mut relay, 0, 0, CASE_1).outcome,
        Outcome::Whole(_)
    ));
}

/// The values held after descriptions of the given values, each of one byte.
fn held_after(values: &[u8]) -> Vec<usize> {
    let mut relay = fresh(1);
    for sidx in values {
        let answer = receive(&mut relay, 0, 0, &[5, 0, 4, *sidx, b'd']);
        assert_eq!(answer.outcome, Outcome::Described);
    }
    (0..128)
        .filter(|sidx| !relay.look(0, *sidx, &[]).is_empty())
        .collect()
}

#[test]
fn case_9_the_window_moves_by_at_most_64() {
    assert_eq!(held_after(&[10, 74]), [74]);
    assert_eq!(held_after(&[10, 75]), [10, 75]);
    assert_eq!(held_after(&[10, 75, 73]), [10, 73]);
    assert_eq!(held_after(&[127, 63, 126, 0]), [0, 126]);
}

#[test]
fn case_10_the_shares() {
    let mut relay = fresh(2);
    let mut open = |desk, time| receive(&mut relay, desk, time, PART_7).outcome;
    for time in 0..6 {
        assert_eq!(open(0, time), Outcome::Kept(1));
    }
    assert_eq!(open(0, 6), Outcome::Refused(8));
    for time in 0..2 {
        assert_eq!(open(1, time), Outcome::Kept(1));
    }
    assert_eq!(open(1, 2), Outcome::Refused(9));
    assert_eq!(relay.counts(), ([6, 2, 0, 0, 0, 0, 0, 0], 4));
    assert_eq!(relay.give_up(0, 3), Ok(()));
    assert_eq!(relay.give_up(0, 3), Err(11));
    assert_eq!(relay.counts(), ([5, 2, 0, 0, 0, 0, 0, 0], 3));
    assert_eq!(receive(&mut relay, 1, 2, PART_7).outcome, Outcome::Kept(1));
    assert_eq!(relay.counts(), ([5, 3, 0, 0, 0, 0, 0, 0], 4));
}

/// The unit is 17: its bytes are used, and time and output stay.
fn assert_ill_formed(relay: &mut Rival, time: u32, rest: &[u8]) {
    let mut out = [0xEE; 1024];
    let answer = relay.receive(0, Some(time), rest, &mut out);
    let expected = Answer {
        used: rest.len(),
        next: Some(time),
        outcome: Outcome::Refused(17),
    };
    assert_eq!(answer, expected, "{rest:02X?}");
    assert_eq!(out, [0xEE; 1024], "{rest:02X?}");
}

#[test]
fn ill_formed_strings_are_17_before_late_repeats_and_too_many_bytes() {
    let mut relay = fresh(1);
    let head = b"\x01\x04\x09\x80\x00\x00\x09\x04\x01";
    assert_ill_formed(&mut relay, 6, &[&head[..], &[0xFF; 1025]].concat());
    assert_ill_formed(&mut relay, 6, &third(1, b"\xE2\x82"));
    assert_ill_formed(&mut relay, 6, &third(3, b"\xAC"));
    assert_ill_formed(
        &mut relay,
        6,
        b"\x82\x00\x0B\x11\x00\x00\x09\x80\x00\x02\xD8\x3D",
    );
    assert_ill_formed(
        &mut relay,
        6,
        b"\x81\x00\x0B\x80\x00\x00\x09\x00\x03\x00a\x00",
    );
    let kept = receive(&mut relay, 0, 6, &third(3, b"def"));
    assert_eq!((kept.next, kept.outcome), (Some(106), Outcome::Kept(2)));
    assert_ill_formed(&mut relay, 6, &third(3, b"de\xFF"));
    assert_eq!(relay.give_up(0, 6), Ok(()));
    let late = receive(&mut relay, 0, 6, &third(3, b"def"));
    assert_eq!((late.next, late.outcome), (Some(106), Outcome::Refused(6)));
    assert_ill_formed(&mut relay, 6, &third(3, b"de\xFF"));
}

#[test]
fn only_strings_are_looked_at() {
    let mut relay = fresh(1);
    let units: [&[u8]; 5] = [
        b"\x01\x00\x0A\x80\x00\x00\x01\x00\x01a\xFF",
        b"\x81\x00\x09\x80\x00\x00\x01\x00\x00\xFF",
        b"\x03\x00\x07\x31\x00\x00\x01\xFF",
        b"\x84\x00\x07\x32\x00\x00\x01\xFF",
        b"\x85\x00\x04\x07\xFF",
    ];
    for (time, unit) in [0, 1, 2, 2, 2].into_iter().zip(units) {
        let outcome = receive(&mut relay, 0, time, unit).outcome;
        assert!(!matches!(outcome, Outcome::Refused(_)), "{unit:02X?}");
    }
}

/// Parts 1 and 2 of a sample of two letters, with SDUR 0.
const LIVE: [&[u8]; 2] = [
    b"\x02\x00\x0A\x21\x00\x00\x00\x80\x00\x02A",
    b"\x02\x00\x0A\x22\x00\x00\x00\x80\x00\x02B",
];

#[test]
fn the_time_is_unknown_behind_a_live_line_and_text_units_are_18_there() {
    let units: [(&[u8], Option<Outcome>); 5] = [
        (b"\x01\x00\x09\x80\x00\x00\x00\x00\x01A", None),
        (
            b"\x01\x00\x08\x80\x00\x00\x05\x00\x00",
            Some(Outcome::Refused(18)),
        ),
        (b"\x05\x00\x04\x01a", Some(Outcome::Described)),
        (b"\x06\x00\x02", Some(Outcome::Skipped(6))),
        (b"\x01", Some(Outcome::Refused(3))),
    ];
    let mut relay = fresh(1);
    let mut time = Some(0);
    for (unit, outcome) in units {
        let answer = relay.receive(0, time, unit, &mut [0; 1024]);
        assert_eq!((answer.used, answer.next), (unit.len(), None));
        match outcome {
            None => assert!(matches!(answer.outcome, Outcome::Whole(_))),
            Some(outcome) => assert_eq!(answer.outcome, outcome),
        }
        time = answer.next;
    }
    let late = receive(&mut relay, 0, 0, LIVE[1]);
    assert_eq!((late.next, late.outcome), (None, Outcome::Refused(6)));
}

#[test]
fn only_the_last_part_of_a_live_line_makes_the_time_unknown() {
    for (order, next) in [([0, 1], [Some(7), None]), ([1, 0], [None, Some(7)])] {
        let mut relay = fresh(1);
        let answers = order.map(|i| receive(&mut relay, 0, 7, LIVE[i]));
        assert_eq!(answers.map(|answer| answer.next), next);
        assert!(matches!(answers[1].outcome, Outcome::Joined(_)));
    }
}

#[test]
fn at_an_unknown_time_4_and_17_come_first_and_18_stores_nothing() {
    let mut relay = fresh(1);
    let mut refused = |unit: &[u8]| {
        let answer = relay.receive(0, None, unit, &mut [0; 1024]);
        assert_eq!((answer.used, answer.next), (unit.len(), None));
        answer.outcome
    };
    assert_eq!(
        refused(b"\x01\x00\x07\x80\x00\x00\x05\x00"),
        Outcome::Refused(4)
    );
    assert_eq!(refused(&third(1, b"\xFF")), Outcome::Refused(17));
    for unit in [CASE_1, PART_7, LIVE[0], LIVE[1]] {
        assert_eq!(refused(unit), Outcome::Refused(18));
    }
    assert_eq!(relay.counts(), ([0; 8], 0));
    let whole = receive(&mut relay, 0, 0, CASE_1);
    assert!(matches!(whole.outcome, Outcome::Whole(_)));
}
