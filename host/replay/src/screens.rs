//! An answer in plain words: what the halls show.

use spindlefig::{boxes, Facts, Heard, Outcome, Refusal, Step};

use crate::numbers;
use crate::play::{Event, Payload};

pub fn line(event: &Event) -> String {
    match event {
        Event::SetUp(Ok(1)) => aside("the relay is ready for one desk"),
        Event::SetUp(Ok(desks)) => aside(&format!("the relay is ready for {desks} desks")),
        Event::SetUp(Err(refusal)) => aside(&refusal.to_string()),
        Event::Heard {
            desk,
            payload,
            heard,
        } => at_desk(heard.time, *desk, &unit(payload, heard)),
        Event::GivenUp { desk, time, result } => at_desk(Some(*time), *desk, &given_up(result)),
        Event::Shown {
            desk,
            index,
            description,
        } => format!("{:10}  desk {desk} | {}", "", shown(*index, description)),
        Event::Counted { open, common } => aside(&format!(
            "captions waiting for parts, desk by desk: {}; in common places: {common}",
            numbers::list(open)
        )),
        Event::Written(Ok(Payload { bytes, count })) => aside(&format!(
            "a payload of {} bytes, one of {count}",
            bytes.len()
        )),
        Event::Written(Err(refusal)) => aside(&refusal.to_string()),
        Event::Checked(Ok(records)) => aside(&format!("a good style book; records: {records}")),
        Event::Checked(Err(bad)) => aside(&bad.to_string()),
        Event::Walked(found) => aside(&walked(found)),
    }
}

fn aside(note: &str) -> String {
    format!("{:10}  ({note})", "")
}

fn at_desk(time: Option<u32>, desk: usize, words: &str) -> String {
    format!("{:>10}  desk {desk} | {words}", numbers::time(time))
}

fn unit(payload: &[u8], heard: &Heard) -> String {
    match heard.answer.outcome {
        Outcome::End => "(an empty payload)".to_string(),
        Outcome::Whole(facts) | Outcome::Joined(facts) => caption(facts, &heard.sample),
        Outcome::Kept(1) => "(a part is kept, one is missing)".to_string(),
        Outcome::Kept(missing) => format!("(a part is kept, {missing} are missing)"),
        Outcome::Repeat => "(the same again: nothing changes)".to_string(),
        // SIDX is byte 3 of a TYPE 5 unit.
        Outcome::Described => format!("(style {} is kept)", payload[heard.at + 3]),
        Outcome::Skipped(kind) => format!("(a unit of TYPE {kind} is passed over)"),
        Outcome::Refused(Refusal::Spoiled) => format!("({}; it is dropped)", Refusal::Spoiled),
        Outcome::Refused(refusal) => format!("({refusal}; the screens stay as they are)"),
    }
}

fn caption(facts: Facts, sample: &[u8]) -> String {
    let (string, modifiers) = sample.split_at(facts.string);
    let text = match facts.u {
        0 => String::from_utf8_lossy(string).into_owned(),
        _ => utf16(string),
    };
    let style = format!("style {}{}", facts.sidx, named(modifiers));
    format!("{:<46}  {style}", plain(&text))
}

fn utf16(string: &[u8]) -> String {
    let unit = |two: &[u8]| match two {
        [high, low] => u16::from_be_bytes([*high, *low]),
        // half a unit is no character
        _ => 0xfffd,
    };
    let units: Vec<u16> = string.chunks(2).map(unit).collect();
    String::from_utf16_lossy(&units)
}

/// Control characters escaped, so that a caption stays on its line.
fn plain(text: &str) -> String {
    let mut shown = String::new();
    for c in text.chars() {
        if c.is_control() {
            shown.extend(c.escape_default());
        } else {
            shown.push(c);
        }
    }
    shown
}

/// The boxes of the modifiers by their types.
fn named(modifiers: &[u8]) -> String {
    let mut names = String::new();
    for found in boxes(modifiers) {
        names += " + ";
        names += &found.map_or("no box".to_string(), |found| name(found.kind));
    }
    names
}

fn name(kind: u32) -> String {
    kind.to_be_bytes().escape_ascii().to_string()
}

fn given_up(result: &Result<(), Refusal>) -> String {
    match result {
        Ok(()) => "(given up: this caption is not waited for any longer)".to_string(),
        Err(refusal) => format!("({refusal})"),
    }
}

fn shown(index: usize, description: &[u8]) -> String {
    match description {
        [] => format!("(style {index}: none)"),
        _ => format!("(style {index}: {})", description.escape_ascii()),
    }
}

fn walked(found: &Step) -> String {
    match found {
        Step::End => "the end of the modifiers".to_string(),
        Step::Box { kind, contents, .. } => {
            format!("box {}, {} bytes", name(*kind), contents.len())
        }
        Step::Refused(refusal) => refusal.to_string(),
    }
}

#[cfg(test)]
mod tests {
    use super::*;
    use spindlefig::Answer;

    fn facts(u: u8, string: usize, sample: usize) -> Facts {
        Facts {
            time: 0,
            u,
            sidx: 128,
            sdur: 1,
            string,
            sample,
        }
    }

    #[test]
    fn a_caption_stays_on_its_line() {
        let line = caption(facts(0, 5, 5), b"a\nb\x1bc");
        assert!(line.starts_with("a\\nb\\u{1b}c "));
        assert!(line.ends_with("  style 128"));
    }

    #[test]
    fn utf_16_is_read_with_half_a_unit_and_half_a_pair() {
        assert_eq!(utf16(&[0, 0x48, 0xd8, 0x3d, 0xde, 0]), "H\u{1f600}");
        assert_eq!(utf16(&[0xd8, 0x3d, 0x20]), "\u{fffd}\u{fffd}");
    }

    /// The line of desk 0 for a unit of ten bytes that is refused and leaves the time.
    fn refused(time: Option<u32>, refusal: Refusal) -> String {
        let heard = Heard {
            at: 0,
            time,
            answer: Answer {
                used: 10,
                next: time,
                outcome: Outcome::Refused(refusal),
            },
            sample: Vec::new(),
        };
        let payload = &[0; 10];
        line(&Event::Heard {
            desk: 0,
            payload,
            heard,
        })
    }

    #[test]
    fn a_refusal_is_told_in_words() {
        let words = "(refused 17: the string is not well-formed; the screens stay as they are)";
        assert_eq!(
            refused(Some(6), Refusal::IllFormed),
            format!("         6  desk 0 | {words}")
        );
    }

    #[test]
    fn an_unknown_time_is_shown_as_such() {
        let words = "(refused 18: the running time is not known; the screens stay as they are)";
        assert_eq!(
            refused(None, Refusal::Untimed),
            format!("         ?  desk 0 | {words}")
        );
    }

    #[test]
    fn modifiers_are_named() {
        let line = caption(facts(0, 0, 13), b"\x00\x00\x00\x0cblnk\x00\x00\x00\x01\x00");
        assert!(line.ends_with("  style 128 + blnk + no box"));
    }
}
