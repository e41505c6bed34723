//! Compares the proved relay with the second one and the rival on random and damaged runs.

mod call;
mod comparison;
mod generator;
mod log;
mod opinion;
mod player;
mod random;
mod tally;
#[cfg(test)]
mod tests;

use rival::Rival;
use second::Second;
use spindlefig::Relay;
use std::env;
use std::fs;
use std::process::ExitCode;
use tally::Tally;

const USAGE: &str = "\
compare [--unproved] [SEED [COUNT [LOG]]]

Plays random and damaged runs through the proved relay, the second one and the
rival, and compares every answer and every output byte of COUNT calls. A string
that is handed out has to be well-formed as well, as Rust's own decoders say. The
rival takes no part in writing, style book checks and box walks. After set-up and
after each call on the relays the stored counts of open samples are held against
what the second one counts in its maps. Some payloads begin at an unknown running
time, and many pass into it; of the time before and behind each unit is told how
often it was known, lost at this unit, or unknown.

  SEED   which runs to play (1)
  COUNT  how many calls to compare (2000000)
  LOG    the file for the calls of a run with a difference (difference.log)

Some calls lend memory that set-up did not leave: another number of desks in
it, or too little. Where that is refused the proved relay alone is asked, and
what it has to answer is told by the rule as the second one states it. Where it
is not refused the call is left out: there only safety is promised.

--unproved leaves the proved relay out and holds the rival against the second.";

/// From this count on every refusal has to be seen this often.
const LARGE_COUNT: u64 = 1_000_000;
const OFTEN: u64 = 1_000;

struct Arguments {
    unproved: bool,
    seed: u64,
    count: u64,
    log: String,
}

fn arguments(words: &[String]) -> Option<Arguments> {
    let unproved = words.first().is_some_and(|word| word == "--unproved");
    let words = &words[usize::from(unproved)..];
    let number = |place: usize, default| match words.get(place) {
        Some(word) => word.parse().ok(),
        None => Some(default),
    };
    let log = words.get(2).map_or("difference.log", String::as_str);
    (words.len() <= 3).then_some(Arguments {
        unproved,
        seed: number(0, 1)?,
        count: number(1, 2_000_000)?,
        log: log.to_string(),
    })
}

fn compare(arguments: &Arguments) -> ExitCode {
    let mut tally = Tally::default();
    let (seed, count) = (arguments.seed, arguments.count);
    let compared = if arguments.unproved {
        comparison::compare::<Second, Second, Rival>(seed, count, &mut tally)
    } else {
        comparison::compare::<Relay, Second, Rival>(seed, count, &mut tally)
    };
    println!("{tally}");
    if let Err(found) = compared {
        println!("difference: {}", found.difference.what);
        let log = log::text(&found.run, &found.difference);
        match fs::write(&arguments.log, log) {
            Ok(()) => println!("the calls are in {}", arguments.log),
            Err(error) => println!("{} cannot be written: {error}", arguments.log),
        }
        return ExitCode::FAILURE;
    }
    println!("no difference");
    let rare = tally.rarer_than(OFTEN);
    if arguments.count >= LARGE_COUNT && !rare.is_empty() {
        println!("refusals seen fewer than {OFTEN} times: {rare:?}");
        return ExitCode::FAILURE;
    }
    ExitCode::SUCCESS
}

fn main() -> ExitCode {
    let words: Vec<String> = env::args().skip(1).collect();
    if words.iter().any(|word| word == "--help") {
        println!("{USAGE}");
        return ExitCode::SUCCESS;
    }
    match arguments(&words) {
        Some(arguments) => compare(&arguments),
        None => {
            eprintln!("{USAGE}");
            ExitCode::from(2)
        }
    }
}
