//! Strings have to be well-formed by themselves: refusal 17.

use second::{Answer, Outcome, Second};

/// A euro sign in UTF-8, and a smiling face in UTF-16.
const EURO: &[u8] = b"\xE2\x82\xAC";
const FACE: &[u8] = b"\xD8\x3D\xDE\x00";

/// Strings that are cut inside a character, have half a unit or are of the other encoding.
const ILL_FORMED: [(u8, &[u8]); 7] = [
    (0, b"\xE2\x82"),
    (0, b"\xAC"),
    (0, b"\xED\xA0\x80"),
    (0, FACE),
    (1, b"\x00a\x00"),
    (1, b"\xD8\x3D"),
    (1, b"\xDE\x00\xD8\x3D"),
];

fn fresh() -> Second {
    Second::set_up(1).expect("1 to 8 desks")
}

/// Byte 0, LEN and the fields.
fn unit(u: u8, kind: u8, fields: &[&[u8]]) -> Vec<u8> {
    let fields = fields.concat();
    let len = (fields.len() + 2) as u16;
    [&[u << 7 | kind], &len.to_be_bytes()[..], &fields].concat()
}

/// A whole sample that lasts 9.
fn whole(u: u8, tlen: u16, data: &[u8]) -> Vec<u8> {
    unit(u, 1, &[&[128, 0, 0, 9], &tlen.to_be_bytes(), data])
}

/// Part `this` of two of a sample that lasts 9.
fn string_part(u: u8, this: u8, slen: u16, data: &[u8]) -> Vec<u8> {
    let numbers = [0x20 | this, 0, 0, 9, 128];
    unit(u, 2, &[&numbers, &slen.to_be_bytes(), data])
}

fn receive(relay: &mut Second, time: u32, rest: &[u8]) -> Answer {
    relay.receive(0, Some(time), rest, &mut [0; 1024])
}

/// The unit is 17: its bytes are used, and time, tables and output stay.
fn assert_ill_formed(relay: &mut Second, time: u32, rest: &[u8]) {
    let before = relay.clone();
    let mut out = [0xEE; 1024];
    let answer = relay.receive(0, Some(time), rest, &mut out);
    let expected = Answer {
        used: rest.len(),
        next: Some(time),
        outcome: Outcome::Refused(17),
    };
    assert_eq!(answer, expected, "{rest:02X?}");
    assert_eq!(*relay, before, "{rest:02X?}");
    assert_eq!(out, [0xEE; 1024], "{rest:02X?}");
}

#[test]
fn a_long_ill_formed_string_is_17_and_not_5() {
    let head = b"\x01\x04\x09\x80\x00\x00\x09\x04\x01";
    let rest = [&head[..], &[0xFF; 1025]].concat();
    assert_eq!(rest.len(), 1034);
    assert_ill_formed(&mut fresh(), 6, &rest);
}

#[test]
fn each_part_is_judged_by_itself() {
    let mut relay = fresh();
    assert_ill_formed(&mut relay, 6, &string_part(0, 1, 3, &EURO[..2]));
    assert_ill_formed(&mut relay, 6, &string_part(0, 2, 3, &EURO[2..]));
    assert_ill_formed(&mut relay, 6, &string_part(1, 1, 4, &FACE[..2]));
    assert_ill_formed(&mut relay, 6, &string_part(1, 2, 4, &FACE[2..]));
    let kept = receive(&mut relay, 6, &string_part(0, 1, 6, EURO));
    assert_eq!(kept.outcome, Outcome::Kept(1));
    let joined = receive(&mut relay, 6, &string_part(0, 2, 6, EURO));
    assert!(matches!(joined.outcome, Outcome::Joined(_)));
}

#[test]
fn ill_formed_strings_are_17_in_whole_samples_and_in_parts() {
    for (u, string) in ILL_FORMED {
        let tlen = string.len() as u16;
        assert_ill_formed(&mut fresh(), 6, &whole(u, tlen, string));
        for this in [1, 2] {
            assert_ill_formed(&mut fresh(), 6, &string_part(u, this, 9, string));
        }
    }
}

#[test]
fn what_lies_behind_tlen_is_not_looked_at() {
    let samples: [(u8, u16, &[u8]); 5] = [
        (0, 3, b"\xE2\x82\xAC\xFF"),
        (1, 4, b"\xD8\x3D\xDE\x00\xD8"),
        (0, 0, b""),
        (0, 0, b"\xFF"),
        (1, 0, b"\xDE"),
    ];
    for (u, tlen, data) in samples {
        let answer = receive(&mut fresh(), 6, &whole(u, tlen, data));
        assert!(matches!(answer.outcome, Outcome::Whole(_)), "{data:02X?}");
        assert_eq!(answer.next, Some(15));
    }
    assert_ill_formed(&mut fresh(), 6, &whole(0, 2, EURO));
}

#[test]
fn types_3_4_and_5_are_not_looked_at() {
    for u in [0, 1] {
        let mut relay = fresh();
        for (kind, this) in [(3, 1), (4, 2)] {
            let part = unit(u, kind, &[&[0x30 | this, 0, 0, 9], b"\xFF"]);
            let kept = receive(&mut relay, 6, &part);
            assert_eq!(kept.outcome, Outcome::Kept(3 - usize::from(this)));
        }
        let described = receive(&mut relay, 6, &unit(u, 5, &[&[7], b"\xFF"]));
        assert_eq!(described.outcome, Outcome::Described);
    }
}

#[test]
fn fields_come_before_17() {
    let reserved = unit(0, 1, &[&[255, 0, 0, 9, 0, 1], b"\xFF"]);
    let beyond = string_part(0, 3, 1, b"\xFF");
    for rest in [reserved, beyond] {
        let answer = receive(&mut fresh(), 6, &rest);
        assert_eq!(answer.outcome, Outcome::Refused(4));
    }
}

#[test]
fn late_units_with_an_ill_formed_string_are_17() {
    let mut relay = fresh();
    receive(&mut relay, 6, &whole(0, 3, EURO));
    let late = receive(&mut relay, 6, &whole(0, 3, EURO));
    assert_eq!((late.next, late.outcome), (Some(15), Outcome::Refused(6)));
    assert_ill_formed(&mut relay, 6, &whole(0, 2, EURO));
    assert_ill_formed(&mut relay, 6, &string_part(0, 2, 2, &EURO[..2]));
}

#[test]
fn repeats_and_conflicts_with_an_ill_formed_string_are_17() {
    let mut relay = fresh();
    let part = string_part(1, 2, 6, b"\x00a");
    assert_eq!(receive(&mut relay, 6, &part).outcome, Outcome::Kept(1));
    assert_eq!(receive(&mut relay, 6, &part).outcome, Outcome::Repeat);
    assert_ill_formed(&mut relay, 6, &string_part(1, 2, 6, b"\x00a\x00"));
    let part = unit(0, 3, &[&[0x22, 0, 0, 9], b"\xFF"]);
    assert_eq!(receive(&mut relay, 7, &part).outcome, Outcome::Kept(1));
    let good_and_bad = [
        (
            6,
            [b"\x00b", b"\xD8\x3D"].map(|data| string_part(1, 2, 6, data)),
        ),
        (6, [b"a", b"\xFF"].map(|data| whole(0, 1, data))),
        (7, [b"a", b"\xFF"].map(|data| string_part(0, 2, 6, data))),
        (7, [b"a", b"\xFF"].map(|data| whole(0, 1, data))),
    ];
    for (time, [good, bad]) in good_and_bad {
        let answer = receive(&mut relay, time, &good);
        assert_eq!(
            (answer.next, answer.outcome),
            (Some(time + 9), Outcome::Refused(7))
        );
        assert_ill_formed(&mut relay, time, &bad);
    }
}

#[test]
fn oversize_units_with_an_ill_formed_string_are_17() {
    let good_and_bad = [
        [&b"a"[..], &EURO[..2]].map(|data| string_part(0, 2, 1025, data)),
        [b"ab", b"a\xFF"].map(|data| string_part(0, 2, 1, data)),
        [b'a', 0xFF].map(|byte| whole(0, 1025, &[byte; 1025])),
    ];
    for [good, bad] in good_and_bad {
        let answer = receive(&mut fresh(), 6, &good);
        assert_eq!(
            (answer.next, answer.outcome),
            (Some(15), Outcome::Refused(5))
        );
        assert_ill_formed(&mut fresh(), 6, &bad);
    }
}
