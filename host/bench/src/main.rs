//! How fast the proved relay is, beside the second one, the rival, a plain copy of the same bytes,
//! Rust's own decoder on the unit's string (`decoder`) and, if one is named, an old version of
//! itself, with what the proved relay takes more than that in times of the decoder (`added`): all in
//! one run. The same for strings, beside Rust's own decoders. And how much stack it takes.

mod compiled;
mod enter;
mod hears;
mod library;
mod load;
mod stack;
mod strings;

use compiled::Compiled;
use hears::{Copied, CutOut, Decoded, Hears};
use library::Library;
use load::{Call, Load};
use rival::Rival;
use second::Second;
use std::env;
use std::ffi::OsString;
use std::path::Path;
use std::process::ExitCode;
use std::time::Instant;

const USAGE: &str = "\
bench [--old LIBRARY] [--runs RUNS]

Plays the same units through the proved relay, the second one, the rival and a
plain copy, by turns, and prints the nanoseconds a unit of each one's quickest
run, and how many times as long as the others the proved relay takes. The column
decoder is what Rust's own decoder takes for the unit's string, without cutting
it out of the unit. Then the same for strings, beside Rust's own decoders, and
the bytes of stack that the relay's calls take.

  --old LIBRARY  an earlier libexport.a (turned into a shared object by cc) or a
                 shared object made of one: a column of its own in the same run,
                 and the column added, which is what the proved relay takes more
                 than the old one, in times of decoder.
                 SPINDLEFIG_OLD=LIBRARY in the environment does the same
  --runs RUNS    short runs of each (201)";

/// Units of one run, about, and units played before its clock starts.
const UNITS: usize = 2048;
const WARMING: usize = 512;

const RUNS: usize = 201;

struct Options {
    old: Option<OsString>,
    runs: usize,
}

/// The options, or nothing where the words are not understood.
fn options(words: &[OsString]) -> Option<Options> {
    let mut options = Options {
        old: env::var_os("SPINDLEFIG_OLD").filter(|path| !path.is_empty()),
        runs: RUNS,
    };
    for pair in words.chunks(2) {
        let [name, value] = pair else {
            return None;
        };
        match name.to_str()? {
            "--old" => options.old = Some(value.clone()),
            "--runs" => options.runs = value.to_str()?.parse().ok().filter(|runs| *runs > 0)?,
            _ => return None,
        }
    }
    Some(options)
}

fn play<H: Hears>(hearer: &mut H, calls: &[Call], from: u32, out: &mut [u8]) -> usize {
    calls
        .iter()
        .map(|call| hearer.hear(call.desk, call.time(from), &call.unit, out))
        .sum()
}

/// Nanoseconds a unit, and the sum of all answers.
fn timed<H: Hears>(load: &Load, mut hearer: H) -> (f64, usize) {
    let mut out = vec![0; 2048];
    let rounds = |units: usize| (units / load.round.len()).max(1);
    let (warming, counted) = (rounds(WARMING), rounds(UNITS));
    let mut sum = play(&mut hearer, &load.before, 0, &mut out);
    for round in 0..warming {
        sum += play(&mut hearer, &load.round, round as u32 * load.span, &mut out);
    }
    let start = Instant::now();
    for round in warming..warming + counted {
        sum += play(&mut hearer, &load.round, round as u32 * load.span, &mut out);
    }
    let units = counted * load.round.len();
    (start.elapsed().as_nanos() as f64 / units as f64, sum)
}

/// Those that are measured, in the order of the columns.
const NAMES: [&str; 6] = ["proved", "second", "rival", "memcpy", "decoder", "old"];

/// One run of everyone, in nanoseconds a unit, and behind the decoder what cutting its string out
/// takes; for those that are not there, nothing.
fn turn(load: &Load, proved: &Library, old: Option<&Library>) -> [Option<f64>; 7] {
    let desks = load.desks;
    let (proved, answers) = timed(load, Compiled::fresh(proved, desks));
    let same = |name: &str, (time, sum): (f64, usize)| {
        assert_eq!(answers, sum, "{}: {name} answers otherwise", load.name);
        Some(time)
    };
    let second = Second::set_up(desks).expect("1 to 8 desks");
    let rival = Rival::set_up(desks).expect("1 to 8 desks");
    [
        Some(proved),
        same("second", timed(load, second)),
        same("rival", timed(load, rival)),
        Some(timed(load, Copied).0),
        Some(timed(load, Decoded).0),
        Some(timed(load, CutOut).0),
        old.map(|old| timed(load, Compiled::fresh(old, desks)).0),
    ]
}

/// The quickest run of each, the decoder's without cutting its string out.
fn quickest(load: &Load, proved: &Library, old: Option<&Library>, runs: usize) -> [Option<f64>; 6] {
    let [proved, second, rival, copied, decoded, cut_out, old] = (0..runs)
        .map(|_| turn(load, proved, old))
        .reduce(|best, times| {
            let pair = |i: usize| Some(f64::min(best[i]?, times[i]?));
            [0, 1, 2, 3, 4, 5, 6].map(pair)
        })
        .expect("there is a run");
    let decoder = decoded
        .zip(cut_out)
        .map(|(decoded, cut_out)| decoded - cut_out);
    [proved, second, rival, copied, decoder, old]
}

/// Whether an old version, which may have other rules, answers the load otherwise.
fn answers_otherwise(load: &Load, proved: &Library, old: &Library) -> bool {
    let sum = |library| timed(load, Compiled::fresh(library, load.desks)).1;
    sum(proved) != sum(old)
}

/// Measures one load for everyone, and prints its line.
fn measure(load: &Load, proved: &Library, old: Option<&Library>, runs: usize) {
    let times = quickest(load, proved, old, runs);
    print!("{} {:>6}", load.name, load.bytes() / load.round.len());
    for time in times.iter().flatten() {
        print!(" {time:>7.0}");
    }
    for other in [times[1], times[2], times[5]].iter().flatten() {
        print!(" {:>8.2}", times[0].unwrap_or(f64::NAN) / other);
    }
    if let [Some(proved), .., Some(decoder), Some(old)] = times {
        print!(" {:>8.2}", (proved - old) / decoder);
    }
    let otherwise = old.is_some_and(|old| answers_otherwise(load, proved, old));
    println!("{}", if otherwise { " *" } else { "" });
}

fn print_times(proved: &Library, old: Option<&Library>, runs: usize) {
    println!("Nanoseconds a unit, the quickest of {runs} runs of about {UNITS} units, all by turns; tables are made anew and");
    println!("{WARMING} units played before each. The ratios are the proved relay's time to the others'. decoder is Rust's own on the");
    println!("unit's string, without cutting it out of the unit; added is what the proved relay takes more than the old one, in times");
    println!("of decoder. *: the old one, of other rules, answers some units otherwise.");
    println!();
    print!("{:<23} n {:<5} {:>6}", "units", "table", "bytes");
    let there = if old.is_some() { 6 } else { 5 };
    for name in &NAMES[..there] {
        print!(" {name:>7}");
    }
    let ratios = ["/second", "/rival", "/old", "added"];
    for name in &ratios[..if old.is_some() { 4 } else { 2 }] {
        print!(" {name:>8}");
    }
    println!();
    for load in load::loads() {
        measure(&load, proved, old, runs);
    }
}

fn print_stack(proved: &Library, old: Option<&Library>) {
    println!();
    print!("{:<38} {:>7}", "bytes of stack, a call", "proved");
    println!("{}", if old.is_some() { "     old" } else { "" });
    for (case, name) in stack::CASES {
        print!("{name:<38}");
        for library in [Some(proved), old].into_iter().flatten() {
            match stack::taken(library, case) {
                Some(bytes) => print!(" {bytes:>7}"),
                None => print!(" {:>7}", "few"),
            }
        }
        println!();
    }
}

fn main() -> ExitCode {
    let words: Vec<OsString> = env::args_os().skip(1).collect();
    if words.iter().any(|word| word == "--help") {
        println!("{USAGE}");
        return ExitCode::SUCCESS;
    }
    let Some(options) = options(&words) else {
        eprintln!("{USAGE}");
        return ExitCode::from(2);
    };
    let old = options.old.map(|path| Library::old(Path::new(&path)));
    let old = match old.transpose() {
        Ok(old) => old,
        Err(wrong) => {
            eprintln!("bench: {wrong}");
            return ExitCode::from(2);
        }
    };
    let proved = Library::linked();
    print_times(&proved, old.as_ref(), options.runs);
    strings::print(&proved, old.as_ref(), options.runs);
    print_stack(&proved, old.as_ref());
    ExitCode::SUCCESS
}
