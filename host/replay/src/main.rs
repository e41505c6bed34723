//! Plays a log of calls through the relay, and prints every answer.

mod hex;
mod numbers;
mod parse;
mod play;
mod screens;

use std::env;
use std::fs::File;
use std::io::{self, BufRead, BufReader, BufWriter, Write};
use std::process::ExitCode;

use parse::Line;
use play::Player;

const HELP: &str = include_str!("help.txt");

/// What the command line asks for.
struct Options {
    screens: bool,
    file: String,
}

/// The options, or nothing where the words are not understood.
fn options(words: Vec<String>) -> Option<Options> {
    let mut screens = false;
    let mut file = None;
    for word in words {
        if word == "--screens" {
            screens = true;
        } else if file.is_some() || (word.starts_with('-') && word != "-") {
            return None;
        } else {
            file = Some(word);
        }
    }
    let file = file.unwrap_or("-".to_string());
    Some(Options { screens, file })
}

fn open(file: &str) -> io::Result<Box<dyn BufRead>> {
    match file {
        "-" => Ok(Box::new(io::stdin().lock())),
        _ => Ok(Box::new(BufReader::new(File::open(file)?))),
    }
}

/// The lines printed for a line of the log, or what is wrong with it.
fn answers(player: &mut Player, text: &str, screens: bool) -> Result<Vec<String>, String> {
    match parse::line(text)? {
        Line::Heading(heading) if screens => Ok(vec![String::new(), heading.to_string()]),
        Line::Passed | Line::Heading(_) => Ok(Vec::new()),
        Line::Call(call) => {
            let line = if screens {
                screens::line
            } else {
                numbers::line
            };
            Ok(player.play(&call)?.iter().map(line).collect())
        }
    }
}

/// Plays all lines, and tells whether all were good.
fn run(options: &Options, out: &mut dyn Write) -> io::Result<bool> {
    let mut player = Player::default();
    let mut good = true;
    for (i, line) in open(&options.file)?.split(b'\n').enumerate() {
        let text = line?;
        match answers(
            &mut player,
            &String::from_utf8_lossy(&text),
            options.screens,
        ) {
            Ok(lines) => lines.iter().try_for_each(|line| writeln!(out, "{line}"))?,
            Err(wrong) => {
                good = false;
                writeln!(out, "line {}: {wrong}", i + 1)?;
            }
        }
    }
    out.flush()?;
    Ok(good)
}

fn main() -> ExitCode {
    let words: Vec<String> = env::args().skip(1).collect();
    if words.iter().any(|word| word == "--help") {
        print!("{HELP}");
        return ExitCode::SUCCESS;
    }
    let Some(options) = options(words) else {
        eprintln!("usage: replay [--screens] [FILE]; replay --help tells more");
        return ExitCode::from(2);
    };
    match run(&options, &mut BufWriter::new(io::stdout().lock())) {
        Ok(true) => ExitCode::SUCCESS,
        Ok(false) => ExitCode::from(1),
        Err(error) => {
            eprintln!("replay: {}: {error}", options.file);
            ExitCode::from(2)
        }
    }
}
