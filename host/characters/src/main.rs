//! Compares the relay's character finder, and its check of whole strings, with Rust's own decoding.

mod comparison;
mod sequences;
mod strings;

use comparison::{Comparison, Difference};
use std::process::ExitCode;
use strings::Strings;

fn compare_all() -> Result<[Comparison; 2], Difference> {
    let mut utf8 = Comparison::new(0, spindlefig::character);
    sequences::utf8(&mut |s, at| utf8.compare(s, at))?;
    let mut utf16 = Comparison::new(1, spindlefig::character);
    sequences::utf16(&mut |s, at| utf16.compare(s, at))?;
    Ok([utf8, utf16])
}

fn compare_strings() -> Result<[Strings; 2], strings::Difference> {
    let mut utf8 = Strings::new(0, spindlefig::well_formed);
    utf8.compare_all()?;
    let mut utf16 = Strings::new(1, spindlefig::well_formed);
    utf16.compare_all()?;
    Ok([utf8, utf16])
}

fn run() -> Result<(), String> {
    let [utf8, utf16] = compare_all().map_err(|difference| difference.to_string())?;
    println!("UTF-8: {utf8}");
    println!("UTF-16: {utf16}");
    let [utf8, utf16] = compare_strings().map_err(|difference| difference.to_string())?;
    println!("UTF-8: {utf8}");
    println!("UTF-16: {utf16}");
    Ok(())
}

fn main() -> ExitCode {
    match run() {
        Ok(()) => ExitCode::SUCCESS,
        Err(difference) => {
            println!("{difference}");
            ExitCode::FAILURE
        }
    }
}
