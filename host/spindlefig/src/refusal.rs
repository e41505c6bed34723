use std::error::Error;
use std::fmt;

/// Why a call is refused: document 01's sixteen refusals and those of document 02, the 17th of
/// request 1 and the 18th of request 3, in the order of their numbers.
///
/// ```
/// use spindlefig::Refusal;
///
/// assert_eq!(Refusal::Conflict.number(), 7);
/// assert_eq!(Refusal::from_number(7), Some(Refusal::Conflict));
/// assert_eq!(Refusal::from_number(19), None);
/// assert_eq!(Refusal::Frame.to_string(), "refused 3: the unit is cut short");
/// ```
#[derive(Debug, Clone, Copy, PartialEq, Eq)]
#[repr(u8)]
pub enum Refusal {
    /// 1: the desk is not below n, n is not 1 to 8, or the memory is too short for n.
    Desk = 1,
    /// 2: the output is shorter than 1,024 bytes.
    Output,
    /// 3: the rest has 1 or 2 bytes, LEN is below 2, or the unit is longer than the rest.
    Frame,
    /// 4: LEN is below the least, or TLEN, TOTAL, THIS or SIDX has a wrong value.
    Fields,
    /// 5: a sample above 1,024 bytes, parts above their sample, or a description above 256 bytes.
    Size,
    /// 6: a sample of this time is finished.
    Late,
    /// 7: a part, sample or description disagrees with what is held.
    Conflict,
    /// 8: the desk has six open samples.
    Six,
    /// 9: the common places are used up.
    Common,
    /// 10: all parts are there and do not make a sample; its place is free again.
    Spoiled,
    /// 11: give-up of a sample that is not open.
    NotOpen,
    /// 12: what cannot be sent, a size limit that is not 14 to 1,400, or a short output.
    Writer,
    /// 13: over 15 parts, no string to cut, or a description unit above the size limit.
    Parts,
    /// 14: there is no payload of that number.
    Payload,
    /// 15: no box stands at that place of the modifiers.
    Box,
    /// 16: a record of the style book is bad.
    Book,
    /// 17: the string of the unit is not well-formed.
    IllFormed,
    /// 18: a unit of TYPE 1 to 4 where the running time is unknown.
    Untimed,
}

const ALL: [Refusal; 18] = [
    Refusal::Desk,
    Refusal::Output,
    Refusal::Frame,
    Refusal::Fields,
    Refusal::Size,
    Refusal::Late,
    Refusal::Conflict,
    Refusal::Six,
    Refusal::Common,
    Refusal::Spoiled,
    Refusal::NotOpen,
    Refusal::Writer,
    Refusal::Parts,
    Refusal::Payload,
    Refusal::Box,
    Refusal::Book,
    Refusal::IllFormed,
    Refusal::Untimed,
];

impl Refusal {
    /// Its number in the rules, 1 to 18.
    pub fn number(self) -> u8 {
        self as u8
    }

    /// The refusal of a number, if it is 1 to 18.
    pub fn from_number(number: u8) -> Option<Refusal> {
        let i = usize::from(number).checked_sub(1)?;
        ALL.get(i).copied()
    }

    /// The refusal of a number that the library answered.
    pub(crate) fn told(number: u64) -> Refusal {
        u8::try_from(number)
            .ok()
            .and_then(Refusal::from_number)
            .expect("the library answers refusals 1 to 18")
    }

    /// The reason in a few words, without the number.
    pub fn reason(self) -> &'static str {
        match self {
            Refusal::Desk => "there is no such desk",
            Refusal::Output => "the output is too short",
            Refusal::Frame => "the unit is cut short",
            Refusal::Fields => "a field of the unit is wrong",
            Refusal::Size => "too many bytes",
            Refusal::Late => "the sample of this time is finished already",
            Refusal::Conflict => "it disagrees with what is held",
            Refusal::Six => "the desk has six open samples",
            Refusal::Common => "the common places are used up",
            Refusal::Spoiled => "the parts do not make a sample",
            Refusal::NotOpen => "the sample is not open",
            Refusal::Writer => "this cannot be sent",
            Refusal::Parts => "it cannot be cut for the size limit",
            Refusal::Payload => "there is no payload of that number",
            Refusal::Box => "no box stands there",
            Refusal::Book => "a record of the style book is bad",
            Refusal::IllFormed => "the string is not well-formed",
            Refusal::Untimed => "the running time is not known",
        }
    }
}

impl fmt::Display for Refusal {
    fn fmt(&self, f: &mut fmt::Formatter) -> fmt::Result {
        write!(f, "refused {}: {}", self.number(), self.reason())
    }
}

impl Error for Refusal {}

#[cfg(test)]
mod tests {
    use super::*;

    #[test]
    fn numbers_lead_there_and_back() {
        for (i, refusal) in (1..).zip(ALL) {
            assert_eq!(refusal.number(), i);
            assert_eq!(Refusal::from_number(i), Some(refusal));
        }
        assert_eq!(Refusal::from_number(0), None);
        assert_eq!(Refusal::from_number(255), None);
    }
}
