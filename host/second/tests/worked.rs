//! The twelve cases worked by hand.

use second::{describe, write, Answer, Facts, Lent, Outcome, Second};

const CASE_1: &[u8] = b"\x01\x00\x0A\x80\x01\x5F\x90\x00\x02Hi";
const PART_7: &[u8] = b"\x02\x00\x0B\x21\x00\x00\x64\x80\x00\x0EHi";
const PART_8: &[u8] = b"\x03\x00\x12\x22\x00\x00\x64\x00\x00\x00\x0Cblnk\x00\x00\x00\x01";

fn fresh(n: usize) -> Second {
    Second::set_up(n).expect("1 to 8 desks")
}

fn receive(relay: &mut Second, desk: usize, time: u32, rest: &[u8]) -> Answer {
    relay.receive(desk, Some(time), rest, &mut [0; 1024])
}

fn whole(time: u32, sdur: u32, length: usize) -> Outcome {
    Outcome::Whole(Facts {
        time,
        u: 0,
        sidx: 128,
        sdur,
        string: length,
        sample: length,
    })
}

/// Time, rest, bytes used, next time and outcome of cases 1 to 6.
type Case = (u32, &'static [u8], usize, u32, Outcome);

fn one_unit_cases() -> [Case; 6] {
    let case_2 = b"\x01\x00\x08\x80\x00\x00\x01\x00\x00";
    let case_3 = b"\x01\x00\x07\x80\x00\x00\x01\x00";
    let case_6 = b"\x01\x00\x08\x80\x00\x00\x02\x00\x00";
    [
        (1000, CASE_1, 11, 91000, whole(1000, 90000, 2)),
        (0, case_2, 9, 1, whole(0, 1, 0)),
        (5, case_3, 8, 5, Outcome::Refused(4)),
        (5, b"\x01\x00\x01", 3, 5, Outcome::Refused(3)),
        (5, b"\x06\x00\x02", 3, 5, Outcome::Skipped(6)),
        (4294967295, case_6, 9, 1, whole(4294967295, 2, 0)),
    ]
}

#[test]
fn cases_1_to_6_one_unit() {
    for (time, rest, used, next, outcome) in one_unit_cases() {
        let answer = receive(&mut fresh(1), 0, time, rest);
        let expected = Answer {
            used,
            next: Some(next),
            outcome,
        };
        assert_eq!(answer, expected, "{rest:02X?}");
    }
}

#[test]
fn case_1_puts_the_sample_in_front_and_leaves_the_rest() {
    let mut out = [0xEE; 1024];
    fresh(1).receive(0, Some(1000), CASE_1, &mut out);
    assert_eq!(&out[..2], b"Hi");
    assert!(out[2..].iter().all(|&byte| byte == 0xEE));
}

#[test]
fn cases_7_and_8_join_in_either_order() {
    for (first, second) in [(PART_7, PART_8), (PART_8, PART_7)] {
        let mut relay = fresh(1);
        let kept = receive(&mut relay, 0, 7, first);
        assert_eq!(kept.outcome, Outcome::Kept(1));
        let mut out = [0xEE; 1024];
        let joined = relay.receive(0, Some(7), second, &mut out);
        let facts = Facts {
            time: 7,
            u: 0,
            sidx: 128,
            sdur: 100,
            string: 2,
            sample: 14,
        };
        assert_eq!(joined.outcome, Outcome::Joined(facts));
        assert_eq!(&out[..14], b"Hi\x00\x00\x00\x0Cblnk\x00\x00\x00\x01");
        assert_eq!(out[14], 0xEE);
        let late = receive(&mut relay, 0, 7, second);
        assert_eq!(late.outcome, Outcome::Refused(6));
    }
}

/// The values held after descriptions of the given values, each of one byte.
fn held_after(values: &[usize]) -> Vec<usize> {
    let mut relay = fresh(1);
    for &sidx in values {
        let mut payload = [0; 14];
        let (length, _) = describe(sidx, b"d", 14, 1, &mut payload).expect("it fits");
        let answer = receive(&mut relay, 0, 0, &payload[..length]);
        assert_eq!(answer.outcome, Outcome::Described);
    }
    (0..128)
        .filter(|&sidx| !relay.look(0, sidx, &[]).is_empty())
        .collect()
}

#[test]
fn case_9_the_window_moves_by_at_most_64() {
    assert_eq!(held_after(&[10, 74]), [74]);
    assert_eq!(held_after(&[10, 75]), [10, 75]);
    assert_eq!(held_after(&[10, 75, 73]), [10, 73]);
}

#[test]
fn case_10_the_shares() {
    let mut relay = fresh(2);
    let mut open = |desk, time| receive(&mut relay, desk, time, PART_7).outcome;
    for time in 0..6 {
        assert_eq!(open(0, time), Outcome::Kept(1));
    }
    assert_eq!(open(0, 6), Outcome::Refused(8));
    for time in 0..2 {
        assert_eq!(open(1, time), Outcome::Kept(1));
    }
    assert_eq!(open(1, 2), Outcome::Refused(9));
}

/// The length and count of each payload for that many letters.
fn written(letters: usize, m: usize) -> Result<Vec<(usize, usize)>, u8> {
    let string = vec![b'a'; letters];
    let payload = |k| write(0, 128, 1, &string, &[], m, k, &mut [0; 1400]);
    let (_, count) = payload(1)?;
    (1..=count).map(payload).collect()
}

#[test]
fn case_11_parts_of_4_and_4_or_one_whole_sample() {
    assert_eq!(written(8, 14), Ok(vec![(14, 2), (14, 2)]));
    assert_eq!(written(8, 17), Ok(vec![(17, 1)]));
    let mut out = [0; 1400];
    write(0, 128, 1, b"abcdefgh", &[], 17, 1, &mut out).expect("it fits");
    assert_eq!(out[0], 1);
}

#[test]
fn case_12_at_most_15_parts() {
    assert_eq!(written(60, 14).map(|payloads| payloads.len()), Ok(15));
    assert_eq!(written(61, 14), Err(13));
}

#[test]
fn memory_is_for_the_desks_that_its_head_names_or_for_none() {
    for n in 1..=8 {
        let all = Lent::needed(n);
        assert_eq!(all.marks, 10 + 2 * n);
        assert_eq!(all.desks(), Ok(n));
        let marks = all.marks - 1;
        assert_eq!(Lent { marks, ..all }.desks(), Err(1));
        let head = all.head + 1;
        assert_eq!(Lent { head, ..all }.desks(), Err(1));
    }
    let head = 0;
    assert_eq!(
        Lent {
            head,
            ..Lent::needed(1)
        }
        .desks(),
        Err(1)
    );
    let head = 2;
    assert_eq!(
        Lent {
            head,
            ..Lent::needed(3)
        }
        .desks(),
        Ok(2)
    );
}
