//! A line of a log.

use crate::hex;

/// A call on the relay, the writer, the style book check or the box walk.
#[derive(Debug, PartialEq, Eq)]
pub enum Call {
    SetUp {
        desks: usize,
    },
    Receive {
        desk: usize,
        /// `None` where it is unknown.
        time: Option<u32>,
        payload: Vec<u8>,
    },
    GiveUp {
        desk: usize,
        time: u32,
    },
    Look {
        desk: usize,
        index: usize,
        book: Vec<u8>,
    },
    Counts,
    Write {
        text: Text,
        m: usize,
        k: usize,
    },
    Describe {
        sidx: usize,
        description: Vec<u8>,
        m: usize,
        k: usize,
    },
    Book {
        book: Vec<u8>,
    },
    Walk {
        modifiers: Vec<u8>,
        place: usize,
    },
}

/// A caption to be written.
#[derive(Debug, PartialEq, Eq)]
pub struct Text {
    pub u: usize,
    pub sidx: usize,
    pub sdur: usize,
    pub string: Vec<u8>,
    pub modifiers: Vec<u8>,
}

#[derive(Debug, PartialEq, Eq)]
pub enum Line<'a> {
    /// A comment or an empty line.
    Passed,
    /// A comment that begins with `##`.
    Heading(&'a str),
    Call(Call),
}

/// Each command with the names of its words, which may be none.
const COMMANDS: [(&str, &str); 9] = [
    ("set-up", "N"),
    ("receive", "DESK TIME HEX"),
    ("give-up", "DESK TIME"),
    ("look", "DESK INDEX BOOKHEX"),
    ("counts", ""),
    ("write", "U SIDX SDUR STRINGHEX MODHEX M K"),
    ("describe", "SIDX HEX M K"),
    ("book", "HEX"),
    ("walk", "MODHEX PLACE"),
];

/// What a line says, or what is wrong with it.
pub fn line(text: &str) -> Result<Line<'_>, String> {
    let text = text.trim();
    if let Some(heading) = text.strip_prefix("##") {
        return Ok(Line::Heading(heading.trim_start()));
    }
    if text.is_empty() || text.starts_with('#') {
        return Ok(Line::Passed);
    }
    let mut words = text.split_ascii_whitespace();
    let command = words.next().unwrap_or_default();
    let Some((_, names)) = COMMANDS.iter().find(|(name, _)| *name == command) else {
        return Err(format!("{} is no command", command.escape_debug()));
    };
    let words = Words {
        names: names.split_ascii_whitespace().collect(),
        words: words.collect(),
    };
    if words.words.len() != words.names.len() {
        return Err(takes(command, names));
    }
    call(command, &words).map(Line::Call)
}

/// What is said where other words follow a command.
fn takes(command: &str, names: &str) -> String {
    match names {
        "" => format!("{command} stands alone"),
        _ => format!("{command} takes {names}"),
    }
}

/// The words behind a command, with their names.
struct Words<'a> {
    names: Vec<&'a str>,
    words: Vec<&'a str>,
}

impl Words<'_> {
    fn number(&self, i: usize, most: u64) -> Result<u64, String> {
        let (name, word) = (self.names[i], self.words[i]);
        if !word.bytes().all(|byte| byte.is_ascii_digit()) {
            return Err(format!("{name} is not a number"));
        }
        match word.parse() {
            Ok(n) if n <= most => Ok(n),
            _ => Err(format!("{name} is above {most}")),
        }
    }

    fn size(&self, i: usize) -> Result<usize, String> {
        self.number(i, u64::MAX).map(|n| n as usize)
    }

    fn time(&self, i: usize) -> Result<u32, String> {
        self.number(i, u64::from(u32::MAX)).map(|n| n as u32)
    }

    /// A time, or `?` for an unknown one.
    fn running_time(&self, i: usize) -> Result<Option<u32>, String> {
        match self.words[i] {
            "?" => Ok(None),
            _ => self.time(i).map(Some),
        }
    }

    fn bytes(&self, i: usize) -> Result<Vec<u8>, String> {
        hex::read(self.words[i]).map_err(|wrong| format!("{} {wrong}", self.names[i]))
    }
}

fn call(command: &str, w: &Words) -> Result<Call, String> {
    Ok(match command {
        "set-up" => Call::SetUp { desks: w.size(0)? },
        "receive" => Call::Receive {
            desk: w.size(0)?,
            time: w.running_time(1)?,
            payload: w.bytes(2)?,
        },
        "give-up" => Call::GiveUp {
            desk: w.size(0)?,
            time: w.time(1)?,
        },
        "look" => Call::Look {
            desk: w.size(0)?,
            index: w.size(1)?,
            book: w.bytes(2)?,
        },
        "counts" => Call::Counts,
        "write" => Call::Write {
            text: text(w)?,
            m: w.size(5)?,
            k: w.size(6)?,
        },
        "describe" => Call::Describe {
            sidx: w.size(0)?,
            description: w.bytes(1)?,
            m: w.size(2)?,
            k: w.size(3)?,
        },
        "book" => Call::Book { book: w.bytes(0)? },
        _ => Call::Walk {
            modifiers: w.bytes(0)?,
            place: w.size(1)?,
        },
    })
}

fn text(w: &Words) -> Result<Text, String> {
    Ok(Text {
        u: w.size(0)?,
        sidx: w.size(1)?,
        sdur: w.size(2)?,
        string: w.bytes(3)?,
        modifiers: w.bytes(4)?,
    })
}

#[cfg(test)]
mod tests {
    use super::*;

    fn wrong(text: &str) -> String {
        line(text).expect_err("the line is bad")
    }

    #[test]
    fn comments_and_empty_lines_are_passed_over() {
        for text in ["", "   ", "# set-up 1", "\t#"] {
            assert_eq!(line(text), Ok(Line::Passed));
        }
        assert_eq!(
            line("## The first evening"),
            Ok(Line::Heading("The first evening"))
        );
    }

    #[test]
    fn words_become_a_call() {
        let receive = Call::Receive {
            desk: usize::MAX,
            time: Some(u32::MAX),
            payload: vec![0xab, 0xcd],
        };
        let text = "  receive 18446744073709551615\t4294967295 abCD \r";
        assert_eq!(line(text), Ok(Line::Call(receive)));
    }

    #[test]
    fn only_receive_takes_an_unknown_time() {
        let receive = Call::Receive {
            desk: 0,
            time: None,
            payload: Vec::new(),
        };
        assert_eq!(line("receive 0 ? -"), Ok(Line::Call(receive)));
        assert_eq!(wrong("give-up 0 ?"), "TIME is not a number");
        assert_eq!(wrong("receive ? 0 -"), "DESK is not a number");
        assert_eq!(wrong("receive 0 ?? -"), "TIME is not a number");
    }

    #[test]
    fn each_command_takes_its_own_words() {
        for (command, names) in COMMANDS {
            let words: Vec<&str> = names.split_ascii_whitespace().map(|_| "10").collect();
            let text = format!("{command} {}", words.join(" "));
            assert!(matches!(line(&text), Ok(Line::Call(_))), "{text}");
            assert_eq!(wrong(&format!("{text} 10")), takes(command, names));
            if !words.is_empty() {
                assert_eq!(wrong(command), format!("{command} takes {names}"));
            }
        }
        assert_eq!(line("counts"), Ok(Line::Call(Call::Counts)));
        assert_eq!(wrong("counts 0"), "counts stands alone");
    }

    #[test]
    fn unknown_commands_are_told() {
        assert_eq!(wrong("recieve 0 0 00"), "recieve is no command");
        assert_eq!(wrong("SET-UP 1"), "SET-UP is no command");
        assert_eq!(wrong("\u{1b}[2J"), "\\u{1b}[2J is no command");
    }

    #[test]
    fn bad_numbers_are_told_by_name() {
        assert_eq!(wrong("set-up two"), "N is not a number");
        assert_eq!(wrong("give-up 0 -1"), "TIME is not a number");
        assert_eq!(wrong("give-up +1 1"), "DESK is not a number");
        assert_eq!(wrong("give-up 0 4294967296"), "TIME is above 4294967295");
        let above = "PLACE is above 18446744073709551615";
        assert_eq!(wrong("walk - 18446744073709551616"), above);
    }

    #[test]
    fn bad_hex_is_told_by_name() {
        assert_eq!(wrong("receive 0 0 010"), "HEX has an odd number of digits");
        assert_eq!(wrong("look 0 128 0g"), "BOOKHEX is not hexadecimal");
        assert_eq!(wrong("write 0 0 0 - zz 14 1"), "MODHEX is not hexadecimal");
    }
}
