//! What only a caller in Rust can ask of the relay.

use spindlefig::{
    Answer, Caption, Counts, Lent, Outcome, Refusal, Relay, Writer, DESCRIPTION, DESKS, OUTPUT,
};

const HI: &[u8] = b"\x01\x00\x0a\x80\x01\x5f\x90\x00\x02Hi";

#[test]
fn a_short_output_is_refused_and_uses_nothing() {
    let mut relay = Relay::set_up(1).unwrap();
    let mut out = [7; OUTPUT - 1];
    let answer = relay.receive(0, Some(1000), HI, &mut out);
    assert_eq!(answer.outcome, Outcome::Refused(Refusal::Output));
    assert_eq!((answer.used, answer.next), (0, Some(1000)));
    assert_eq!(out, [7; OUTPUT - 1]);
}

#[test]
fn what_lies_behind_the_sample_stays() {
    let mut relay = Relay::set_up(1).unwrap();
    let mut out = [7; OUTPUT + 1];
    relay.receive(0, Some(1000), HI, &mut out);
    assert_eq!(&out[..2], b"Hi");
    assert!(out[2..].iter().all(|byte| *byte == 7));
}

#[test]
fn units_end_where_no_bytes_are_used() {
    let mut relay = Relay::set_up(1).unwrap();
    let heard: Vec<_> = relay.units(1, 5, HI).collect();
    assert_eq!(heard.len(), 1);
    assert_eq!(heard[0].answer.outcome, Outcome::Refused(Refusal::Desk));
    assert_eq!(relay.units(0, 5, b"").count(), 0);
}

#[test]
fn an_empty_rest_is_the_end() {
    let mut relay = Relay::set_up(1).unwrap();
    let answer = relay.receive(0, Some(5), b"", &mut [0; OUTPUT]);
    assert_eq!(answer.outcome, Outcome::End);
    assert_eq!((answer.used, answer.next), (0, Some(5)));
}

#[test]
fn a_clone_goes_its_own_way() {
    let mut relay = Relay::set_up(8).unwrap();
    let mut other = relay.clone();
    let mut out = [0; OUTPUT];
    let first = relay.receive(7, Some(1000), HI, &mut out).outcome;
    let late = relay.receive(7, Some(1000), HI, &mut out).outcome;
    assert_eq!(late, Outcome::Refused(Refusal::Late));
    assert_eq!(other.receive(7, Some(1000), HI, &mut out).outcome, first);
}

/// All the memory of two desks, with the number that set-up leaves.
const TWO: Lent = Lent {
    head: 2,
    places: 8,
    rows: 32,
    marks: 14,
    stores: 33280,
};

/// Whether a call of each kind is refused by 1 and leaves the memory and the output as they stood.
fn is_refused(relay: &mut Relay, lent: Lent) -> bool {
    relay.lending(lent, |relay| {
        let before = relay.clone();
        let mut out = [7; OUTPUT];
        let one = Answer {
            used: 0,
            next: Some(1000),
            outcome: Outcome::Refused(Refusal::Desk),
        };
        let refused = relay.receive(0, Some(1000), HI, &mut out) == one
            && relay.receive(0, None, HI, &mut out) == Answer { next: None, ..one }
            && relay.give_up(0, 1000) == Err(Refusal::Desk)
            && relay.lookup(0, 7, &[]).is_empty();
        refused && out == [7; OUTPUT] && *relay == before
    })
}

#[test]
fn a_head_that_is_not_1_to_8_is_refused() {
    let mut relay = Relay::set_up(2).unwrap();
    relay.receive(0, Some(0), b"\x05\x00\x08\x07green", &mut [0; OUTPUT]);
    for head in [0, 9, 255, 256 + 2, u32::MAX] {
        assert!(is_refused(&mut relay, Lent { head, ..TWO }), "{head}");
    }
    assert_eq!(relay.lookup(0, 7, &[]), b"green");
    assert_eq!(relay.desks(), 2);
}

#[test]
fn memory_too_short_for_the_head_is_refused() {
    let mut relay = Relay::set_up(2).unwrap();
    for head in 3..=8 {
        assert!(is_refused(&mut relay, Lent { head, ..TWO }), "{head}");
    }
    for marks in 0..TWO.marks {
        assert!(is_refused(&mut relay, Lent { marks, ..TWO }), "{marks}");
    }
    let (places, rows) = (TWO.places - 1, TWO.rows - 1);
    for short in [Lent { places, ..TWO }, Lent { rows, ..TWO }] {
        let given_up = relay.lending(short, |relay| relay.give_up(0, 5));
        assert_eq!(given_up, Err(Refusal::Desk));
    }
    let stores = TWO.stores - 1;
    let answer = relay.lending(Lent { stores, ..TWO }, |relay| {
        relay.receive(0, Some(5), HI, &mut [0; OUTPUT])
    });
    assert_eq!(answer.outcome, Outcome::Refused(Refusal::Desk));
}

/// The first part of two, the other one, and one of TYPE 4 in its place, which spoils the sample.
const FIRST: &[u8] = b"\x02\x00\x0a\x21\x00\x00\x01\x80\x00\x02A";
const LAST: &[u8] = b"\x02\x00\x0a\x22\x00\x00\x01\x80\x00\x02B";
const SPOILING: &[u8] = b"\x04\x00\x07\x22\x00\x00\x01B";

/// Samples of one part: a good one and a spoiled one.
const ALONE: &[u8] = b"\x02\x00\x0a\x11\x00\x00\x01\x80\x00\x01A";
const SPOILED: &[u8] = b"\x03\x00\x07\x11\x00\x00\x01A";

/// What is stored after a unit of a desk: the open samples of desks 0 and 1, and the common use.
fn stored_after(relay: &mut Relay, desk: usize, time: u32, unit: &[u8]) -> [usize; 3] {
    relay.receive(desk, Some(time), unit, &mut [0; OUTPUT]);
    stored(relay)
}

fn stored(relay: &Relay) -> [usize; 3] {
    let Counts { open, common } = relay.counts();
    let [first, second, absent @ ..] = open;
    assert_eq!(absent, [0; DESKS - 2]);
    [first, second, common]
}

#[test]
fn the_stored_counts_rise_with_what_is_opened_and_fall_with_what_ends() {
    let mut relay = Relay::set_up(2).unwrap();
    assert_eq!(stored(&relay), [0, 0, 0]);
    let opened: Vec<_> = (0..6)
        .map(|time| stored_after(&mut relay, 0, time, FIRST))
        .collect();
    let common = [0, 0, 1, 2, 3, 4];
    assert!(opened.into_iter().eq((0..6).map(|i| [i + 1, 0, common[i]])));
    assert_eq!(stored_after(&mut relay, 1, 0, FIRST), [6, 1, 4]);
    assert_eq!(stored_after(&mut relay, 0, 3, LAST), [5, 1, 3]);
    assert_eq!(stored_after(&mut relay, 0, 1, SPOILING), [4, 1, 2]);
    assert_eq!(relay.give_up(0, 5), Ok(()));
    assert_eq!(stored(&relay), [3, 1, 1]);
    assert_eq!(relay.give_up(1, 0), Ok(()));
    assert_eq!(stored(&relay), [3, 0, 1]);
}

#[test]
fn the_stored_counts_stay_where_nothing_is_open_longer_than_the_call() {
    let mut relay = Relay::set_up(2).unwrap();
    for (desk, open) in [(0, 6), (1, 2)] {
        for time in 0..open {
            stored_after(&mut relay, desk, time, FIRST);
        }
    }
    let refused = [
        (0, 6, FIRST, Refusal::Six),
        (1, 6, FIRST, Refusal::Common),
        (2, 6, FIRST, Refusal::Desk),
        (0, 5, ALONE, Refusal::Conflict),
        (1, 8, SPOILED, Refusal::Common),
    ];
    for (desk, time, unit, refusal) in refused {
        let answer = relay.receive(desk, Some(time), unit, &mut [0; OUTPUT]);
        assert_eq!(answer.outcome, Outcome::Refused(refusal));
        assert_eq!(stored(&relay), [6, 2, 4]);
    }
    assert_eq!(relay.give_up(1, 6), Err(Refusal::NotOpen));
    assert_eq!(stored(&relay), [6, 2, 4]);
}

#[test]
fn the_stored_counts_stay_where_a_sample_opens_and_ends_in_one_call() {
    let mut relay = Relay::set_up(2).unwrap();
    let open = stored_after(&mut relay, 1, 1, FIRST);
    let alone = relay.receive(1, Some(7), ALONE, &mut [0; OUTPUT]);
    assert!(matches!(alone.outcome, Outcome::Joined(_)));
    assert_eq!(stored(&relay), open);
    let spoiled = relay.receive(1, Some(8), SPOILED, &mut [0; OUTPUT]);
    assert_eq!(spoiled.outcome, Outcome::Refused(Refusal::Spoiled));
    assert_eq!(stored(&relay), open);
    let whole = relay.receive(1, Some(9), HI, &mut [0; OUTPUT]);
    assert!(matches!(whole.outcome, Outcome::Whole(_)));
    assert_eq!(stored(&relay), open);
}

#[test]
fn the_longest_description_comes_back() {
    let long = [9; DESCRIPTION];
    let mut payload = [0; 300];
    let written = Writer::new(300)
        .describe(127, &long, 1, &mut payload)
        .unwrap();
    let mut relay = Relay::set_up(3).unwrap();
    let described = relay.receive(2, Some(0), &payload[..written.len], &mut [0; OUTPUT]);
    assert_eq!(described.outcome, Outcome::Described);
    assert_eq!(relay.lookup(2, 127, &[]), long);
    assert!(relay.lookup(2, 255, &[]).is_empty());
}

#[test]
fn the_largest_caption_comes_back_from_fifteen_parts_in_any_order() {
    let text = "Der Fuchs grüßt die Hühner. ".repeat(35);
    let caption = Caption {
        u: 0,
        sidx: 254,
        sdur: 0xff_ffff,
        string: &text.as_bytes()[..1012],
        modifiers: b"\x00\x00\x00\x0cblnk\x00\x00\x00\x01",
    };
    let payloads = Writer::new(84).payloads(&caption).unwrap();
    assert_eq!(payloads.len(), 15);
    let mut relay = Relay::set_up(1).unwrap();
    let mut heard = Vec::new();
    for payload in payloads.iter().rev() {
        heard.extend(relay.units(0, u32::MAX, payload));
    }
    assert_eq!(heard[0].answer.next, Some(0xff_fffe));
    let last = heard.pop().unwrap();
    assert_eq!(last.sample, [caption.string, caption.modifiers].concat());
    assert_eq!(last.answer.next, Some(u32::MAX));
    assert!(heard.iter().all(|earlier| earlier.sample.is_empty()));
}

/// The unit is 17: its bytes are used, and time, memory and output stay.
fn assert_ill_formed(relay: &mut Relay, rest: &[u8]) {
    let before = relay.clone();
    let mut out = [7; OUTPUT];
    let answer = relay.receive(0, Some(6), rest, &mut out);
    let refused = Outcome::Refused(Refusal::IllFormed);
    assert_eq!(answer.outcome, refused, "{rest:02x?}");
    let told = (answer.used, answer.next);
    assert_eq!(told, (rest.len(), Some(6)), "{rest:02x?}");
    assert!(*relay == before && out == [7; OUTPUT], "{rest:02x?}");
}

#[test]
fn an_ill_formed_string_is_refused_before_it_is_late_or_too_long() {
    let mut relay = Relay::set_up(1).unwrap();
    let head = b"\x01\x04\x09\x80\x00\x00\x09\x04\x01";
    let long = [&head[..], &[0xff; 1025]].concat();
    assert_ill_formed(&mut relay, &long);
    relay.receive(0, Some(6), HI, &mut [0; OUTPUT]);
    assert_ill_formed(&mut relay, &long);
    assert_ill_formed(&mut relay, b"\x81\x00\x0b\x80\x00\x00\x09\x00\x03\x00H\x00");
}

#[test]
fn each_string_part_is_well_formed_by_itself() {
    let mut relay = Relay::set_up(1).unwrap();
    let halves: [&[u8]; 3] = [
        b"\x02\x00\x0b\x21\x00\x00\x09\x80\x00\x03\xe2\x82",
        b"\x02\x00\x0a\x22\x00\x00\x09\x80\x00\x03\xac",
        b"\x82\x00\x0b\x21\x00\x00\x09\x80\x00\x04\xd8\x3d",
    ];
    for half in halves {
        assert_ill_formed(&mut relay, half);
    }
    let euro = b"\x02\x00\x0c\x11\x00\x00\x09\x80\x00\x03\xe2\x82\xac";
    let joined = relay.receive(0, Some(6), euro, &mut [0; OUTPUT]);
    assert_eq!(joined.outcome.facts().map(|facts| facts.string), Some(3));
}

#[test]
fn modifiers_and_descriptions_are_not_looked_at() {
    let mut relay = Relay::set_up(1).unwrap();
    let units: [&[u8]; 4] = [
        b"\x81\x00\x0b\x80\x00\x00\x09\x00\x02\x00H\xff",
        b"\x83\x00\x07\x31\x00\x00\x09\xff",
        b"\x04\x00\x07\x32\x00\x00\x09\xff",
        b"\x05\x00\x04\x07\xff",
    ];
    let heard: Vec<_> = relay.units(0, 6, &units.concat()).collect();
    let outcomes: Vec<_> = heard.iter().map(|heard| heard.answer.outcome).collect();
    assert!(matches!(outcomes[0], Outcome::Whole(_)));
    let kept = [Outcome::Kept(2), Outcome::Kept(1)];
    assert_eq!(outcomes[1..], [&kept[..], &[Outcome::Described]].concat());
}
