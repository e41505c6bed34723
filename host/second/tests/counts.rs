//! How many samples are open: each desk's, and the common use.

use second::{Counts, Outcome, Second};

/// The first part of two, the other one, and one of TYPE 4 in its place, which spoils the sample.
const FIRST: &[u8] = b"\x02\x00\x0A\x21\x00\x00\x01\x80\x00\x02A";
const LAST: &[u8] = b"\x02\x00\x0A\x22\x00\x00\x01\x80\x00\x02B";
const SPOILING: &[u8] = b"\x04\x00\x07\x22\x00\x00\x01B";

/// Samples of one part: a good one and a spoiled one.
const ALONE: &[u8] = b"\x02\x00\x0A\x11\x00\x00\x01\x80\x00\x01A";
const SPOILED: &[u8] = b"\x03\x00\x07\x11\x00\x00\x01A";

/// A relay of three desks that have six, one and two samples open, at times from 0 on.
fn busy() -> Second {
    let mut relay = Second::set_up(3).expect("1 to 8 desks");
    for (desk, open) in [(0, 6), (1, 1), (2, 2)] {
        for time in 0..open {
            assert_eq!(receive(&mut relay, desk, time, FIRST), Outcome::Kept(1));
        }
    }
    relay
}

fn receive(relay: &mut Second, desk: usize, time: u32, rest: &[u8]) -> Outcome {
    relay
        .receive(desk, Some(time), rest, &mut [0; 1024])
        .outcome
}

fn counts(open: [usize; 3], common: usize) -> Counts {
    let [first, second, third] = open;
    let open = [first, second, third, 0, 0, 0, 0, 0];
    Counts { open, common }
}

#[test]
fn a_fresh_relay_has_nothing_open() {
    for n in 1..=8 {
        let relay = Second::set_up(n).expect("1 to 8 desks");
        assert_eq!(relay.counts(), counts([0; 3], 0));
    }
}

#[test]
fn common_is_what_a_desk_has_open_beyond_two() {
    let mut relay = busy();
    assert_eq!(relay.counts(), counts([6, 1, 2], 4));
    receive(&mut relay, 1, 1, FIRST);
    assert_eq!(relay.counts(), counts([6, 2, 2], 4));
    receive(&mut relay, 1, 2, FIRST);
    assert_eq!(relay.counts(), counts([6, 3, 2], 5));
}

#[test]
fn a_sample_that_ends_is_not_counted_any_more() {
    let mut relay = busy();
    assert!(matches!(
        receive(&mut relay, 0, 0, LAST),
        Outcome::Joined(_)
    ));
    assert_eq!(relay.counts(), counts([5, 1, 2], 3));
    assert_eq!(receive(&mut relay, 0, 1, SPOILING), Outcome::Refused(10));
    assert_eq!(relay.counts(), counts([4, 1, 2], 2));
    assert_eq!(relay.give_up(0, 2), Ok(()));
    assert_eq!(relay.counts(), counts([3, 1, 2], 1));
    assert_eq!(receive(&mut relay, 2, 0, SPOILING), Outcome::Refused(10));
    assert_eq!(relay.counts(), counts([3, 1, 1], 1));
}

#[test]
fn what_opens_no_sample_or_ends_it_at_once_is_not_counted() {
    let mut relay = busy();
    assert_eq!(receive(&mut relay, 0, 6, FIRST), Outcome::Refused(8));
    assert_eq!(receive(&mut relay, 0, 5, FIRST), Outcome::Repeat);
    assert!(matches!(
        receive(&mut relay, 2, 9, ALONE),
        Outcome::Joined(_)
    ));
    assert_eq!(receive(&mut relay, 2, 8, SPOILED), Outcome::Refused(10));
    assert_eq!(receive(&mut relay, 3, 9, FIRST), Outcome::Refused(1));
    assert_eq!(relay.give_up(1, 9), Err(11));
    assert_eq!(relay.counts(), counts([6, 1, 2], 4));
}
