use crate::sys::Row;
use crate::Refusal;

/// What is told of a sample that is handed out.
#[derive(Debug, Clone, Copy, PartialEq, Eq)]
pub struct Facts {
    /// The running time of the sample.
    pub time: u32,
    /// 0 for UTF-8, 1 for UTF-16 big-endian.
    pub u: u8,
    /// The index of its style.
    pub sidx: u8,
    /// How long it lasts; 0 where that is not known yet.
    pub sdur: u32,
    /// The length of its string, in bytes, which are well-formed; what follows in the sample are
    /// modifiers.
    pub string: usize,
    /// The length of the sample, in bytes.
    pub sample: usize,
}

/// What became of a unit.
#[derive(Debug, Clone, Copy, PartialEq, Eq)]
pub enum Outcome {
    /// The rest was empty.
    End,
    /// A sample that came in one unit; it stands at the front of the output.
    Whole(Facts),
    /// A sample whose last missing part came; it stands at the front of the output.
    Joined(Facts),
    /// A part was kept, and so many are still missing.
    Kept(usize),
    /// The part or description is held already.
    Repeat,
    /// A description was stored.
    Described,
    /// A unit of this TYPE (0, 6 or 7) was passed over.
    Skipped(u8),
    /// The unit was refused.
    Refused(Refusal),
}

impl Outcome {
    /// The facts of the sample that is handed out, if one is.
    pub fn facts(&self) -> Option<Facts> {
        match self {
            Outcome::Whole(facts) | Outcome::Joined(facts) => Some(*facts),
            _ => None,
        }
    }
}

/// The answer to one unit.
#[derive(Debug, Clone, Copy, PartialEq, Eq)]
pub struct Answer {
    /// How many bytes of the rest the unit took.
    pub used: usize,
    /// The running time for the next unit of the payload; `None` where it is unknown.
    pub next: Option<u32>,
    /// What became of the unit.
    pub outcome: Outcome,
}

fn facts(row: &Row) -> Facts {
    Facts {
        time: row[4] as u32,
        u: row[5] as u8,
        sidx: row[6] as u8,
        sdur: row[7] as u32,
        string: row[8] as usize,
        sample: row[9] as usize,
    }
}

impl Answer {
    /// The answer that the numbers of a row tell.
    pub(crate) fn told(row: &Row) -> Answer {
        let outcome = match row[3] {
            0 => Outcome::End,
            1 => Outcome::Whole(facts(row)),
            2 => Outcome::Joined(facts(row)),
            3 => Outcome::Kept(row[4] as usize),
            4 => Outcome::Repeat,
            5 => Outcome::Described,
            6 => Outcome::Skipped(row[4] as u8),
            _ => Outcome::Refused(Refusal::told(row[4])),
        };
        Answer {
            used: row[0] as usize,
            next: (row[1] != 0).then_some(row[2] as u32),
            outcome,
        }
    }
}
