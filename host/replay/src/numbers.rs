//! An answer in numbers, as other programs read it.

use spindlefig::{BadRecord, Facts, Heard, Outcome, Refusal, Step};

use crate::hex;
use crate::play::{Event, Payload};

pub fn line(event: &Event) -> String {
    match event {
        Event::SetUp(Ok(desks)) => format!("ready {desks}"),
        Event::Heard { heard, .. } => unit(heard),
        Event::GivenUp { result: Ok(()), .. } => "given up".to_string(),
        Event::Shown { description, .. } => format!("shown {}", hex::show(description)),
        Event::Counted { open, common } => format!("open {} common {common}", list(open)),
        Event::Written(Ok(Payload { bytes, count })) => {
            format!("written {} of {count} {}", bytes.len(), hex::show(bytes))
        }
        Event::Checked(Ok(records)) => format!("good {records}"),
        Event::Checked(Err(BadRecord(i))) => format!("{} {i}", refused(Refusal::Book)),
        Event::Walked(Step::End) => "end".to_string(),
        Event::Walked(Step::Box {
            kind,
            contents,
            next,
        }) => format!("box {kind:08x} next {next} {}", hex::show(contents)),
        Event::SetUp(Err(refusal))
        | Event::GivenUp {
            result: Err(refusal),
            ..
        }
        | Event::Written(Err(refusal))
        | Event::Walked(Step::Refused(refusal)) => refused(*refusal),
    }
}

/// Numbers with spaces between them.
pub fn list(numbers: &[usize]) -> String {
    let numbers: Vec<String> = numbers.iter().map(usize::to_string).collect();
    numbers.join(" ")
}

/// A running time, `?` where it is unknown.
pub fn time(time: Option<u32>) -> String {
    time.map_or("?".to_string(), |time| time.to_string())
}

fn refused(refusal: Refusal) -> String {
    format!("refused {}", refusal.number())
}

fn unit(heard: &Heard) -> String {
    let outcome = match heard.answer.outcome {
        Outcome::End => "end".to_string(),
        Outcome::Whole(facts) => format!("whole {}", sample(facts, &heard.sample)),
        Outcome::Joined(facts) => format!("joined {}", sample(facts, &heard.sample)),
        Outcome::Kept(missing) => format!("kept {missing}"),
        Outcome::Repeat => "repeat".to_string(),
        Outcome::Described => "described".to_string(),
        Outcome::Skipped(kind) => format!("skipped {kind}"),
        Outcome::Refused(refusal) => refused(refusal),
    };
    let next = time(heard.answer.next);
    format!("used {} next {next} {outcome}", heard.answer.used)
}

fn sample(f: Facts, bytes: &[u8]) -> String {
    format!(
        "{} u {} sidx {} sdur {} string {} {}",
        f.sample,
        f.u,
        f.sidx,
        f.sdur,
        f.string,
        hex::show(bytes)
    )
}
