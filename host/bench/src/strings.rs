//! Strings: whether 1,024 bytes are well-formed, beside Rust's own decoders, and the same bytes
//! character by character.

use crate::library::{Library, WellFormed};
use crate::load::QUOTES;
use second::is_well_formed;
use std::hint::black_box;
use std::time::Instant;

/// Bytes of a string, at most: whole characters of what is repeated.
const BYTES: usize = 1024;

/// Checks of one short run.
const CHECKS: usize = 64;

/// What is repeated.
const TEXTS: [(&str, &str); 5] = [
    ("ASCII", "To be, or not to be, "),
    ("Greek", "αβγδεζηθικ"),
    ("emoji", "😀🎭🎬🎪"),
    ("mixed", "Où est né l’abbé? — 😀 "),
    ("quotes", QUOTES),
];

struct Text {
    name: String,
    u: usize,
    bytes: Vec<u8>,
}

fn bytes(u: usize, character: char) -> Vec<u8> {
    match u {
        0 => character.encode_utf8(&mut [0; 4]).as_bytes().to_vec(),
        _ => character
            .encode_utf16(&mut [0; 2])
            .iter()
            .flat_map(|unit| unit.to_be_bytes())
            .collect(),
    }
}

fn text(name: &str, u: usize, repeated: &str) -> Text {
    let mut filled = Vec::new();
    for character in repeated.chars().cycle() {
        let next = bytes(u, character);
        if filled.len() + next.len() > BYTES {
            break;
        }
        filled.extend(next);
    }
    let encoding = if u == 0 { "UTF-8" } else { "UTF-16" };
    Text {
        name: format!("{name} in {encoding}"),
        u,
        bytes: filled,
    }
}

fn texts() -> impl Iterator<Item = Text> {
    let encodings = [0, 1].into_iter();
    encodings.flat_map(|u| TEXTS.map(|(name, repeated)| text(name, u, repeated)))
}

/// Says whether a string is well-formed.
type Check<'a> = &'a dyn Fn(usize, &[u8]) -> bool;

fn well_formed(check: WellFormed, u: usize, s: &[u8]) -> bool {
    // SAFETY: the pointer goes with its own slice's length.
    unsafe { check(u, s.as_ptr(), s.len()) }
}

/// How many characters the string has, found one by one.
fn characters(library: &Library, u: usize, s: &[u8]) -> usize {
    let (mut at, mut count) = (0, 0);
    while at < s.len() {
        // SAFETY: the pointer goes with its own slice's length.
        let length = unsafe { (library.character)(u, s.as_ptr(), s.len(), at) };
        assert_ne!(length, 0, "the string is well-formed");
        at += length;
        count += 1;
    }
    count
}

/// Nanoseconds a check, of one short run.
fn timed(check: impl Fn(usize, &[u8]) -> bool, text: &Text) -> f64 {
    let start = Instant::now();
    for _ in 0..CHECKS {
        assert!(check(black_box(text.u), black_box(&text.bytes)));
    }
    start.elapsed().as_nanos() as f64 / CHECKS as f64
}

/// The quickest of many runs of each, all by turns.
fn quickest(checks: &[Check], text: &Text, runs: usize) -> Vec<f64> {
    let mut best = vec![f64::INFINITY; checks.len()];
    for _ in 0..runs {
        for (best, check) in best.iter_mut().zip(checks) {
            *best = best.min(timed(check, text));
        }
    }
    best
}

/// A line for every text: the times, and the first one's ratio to each of the others.
fn print_table(title: &str, named: &[(&str, Check)], runs: usize) {
    print!("{title:<22}");
    for (name, _) in named {
        print!(" {name:>7}");
    }
    for (name, _) in &named[1..] {
        print!(" {:>8}", format!("/{name}"));
    }
    println!();
    let checks: Vec<Check> = named.iter().map(|(_, check)| *check).collect();
    for text in texts() {
        print_row(&text.name, &quickest(&checks, &text, runs));
    }
}

fn print_row(name: &str, times: &[f64]) {
    print!("{name:<22}");
    for time in times {
        print!(" {time:>7.0}");
    }
    for other in &times[1..] {
        print!(" {:>8.2}", times[0] / other);
    }
    println!();
}

pub fn print(proved: &Library, old: Option<&Library>, runs: usize) {
    println!();
    println!("Nanoseconds a string of {BYTES} bytes (whole characters), the quickest of {runs} runs of {CHECKS} strings, all by turns.");
    println!();
    let now = proved.well_formed.expect("the linked library has it");
    let before = old.and_then(|old| old.well_formed);
    let now = |u: usize, s: &[u8]| well_formed(now, u, s);
    let before = before.map(|check| move |u: usize, s: &[u8]| well_formed(check, u, s));
    let mut named: Vec<(&str, Check)> = vec![("proved", &now), ("Rust", &is_well_formed)];
    named.extend(before.iter().map(|check| ("old", check as Check)));
    print_table("well-formed?", &named, runs);
    println!();
    let now = |u: usize, s: &[u8]| characters(proved, u, s) > 0;
    let before = old.map(|old| move |u: usize, s: &[u8]| characters(old, u, s) > 0);
    let mut named: Vec<(&str, Check)> = vec![("proved", &now)];
    named.extend(before.iter().map(|check| ("old", check as Check)));
    print_table("one by one", &named, runs);
}
