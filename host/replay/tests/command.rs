//! The program as a volunteer starts it.

use std::path::Path;
use std::process::{Command, Output};

fn replay(words: &[&str]) -> Output {
    Command::new(env!("CARGO_BIN_EXE_replay"))
        .args(words)
        .output()
        .expect("replay starts")
}

fn logs() -> String {
    let folder = Path::new(env!("CARGO_MANIFEST_DIR")).join("../logs");
    folder.to_string_lossy().into_owned()
}

#[test]
fn the_logs_are_as_stored() {
    let check = Command::new(format!("{}/check", logs()))
        .arg(env!("CARGO_BIN_EXE_replay"))
        .output()
        .expect("the check starts");
    let printed = String::from_utf8_lossy(&check.stdout);
    assert!(check.status.success(), "{printed}");
    assert!(printed.ends_with("5 logs as stored\n"), "{printed}");
}

#[test]
fn help_names_every_command() {
    let help = replay(&["--help"]);
    let printed = String::from_utf8_lossy(&help.stdout);
    assert!(help.status.success());
    let commands = "set-up receive give-up look counts write describe book walk";
    for command in commands.split(' ') {
        assert!(printed.contains(&format!("\n  {command} ")), "{command}");
    }
}

#[test]
fn what_cannot_be_read_ends_with_two() {
    let missing = format!("{}/no-such.log", logs());
    for words in [&[missing.as_str()][..], &["--screen"], &["-", "-"]] {
        let output = replay(words);
        assert_eq!(output.status.code(), Some(2), "{words:?}");
        assert!(output.stdout.is_empty() && !output.stderr.is_empty());
    }
}

#[test]
fn bad_lines_end_with_one() {
    let log = format!("{}/every-word.log", logs());
    assert_eq!(replay(&[&log]).status.code(), Some(1));
    assert_eq!(replay(&["--screens", &log]).status.code(), Some(1));
}
