use std::fmt;

use crate::sys::Tables;
use crate::{Answer, Refusal};

/// The least output that [`Relay::receive`] takes: no sample is longer.
pub const OUTPUT: usize = 1024;

/// The most bytes of a description.
pub const DESCRIPTION: usize = 256;

/// The most desks of a relay.
pub const DESKS: usize = 8;

/// A relay for up to eight desks, with the memory that it works in.
///
/// A caption in two parts, the string and then a blinking (document 01, cases 7 and 8):
///
/// ```
/// use spindlefig::{Outcome, Relay, OUTPUT};
///
/// let mut relay = Relay::set_up(1)?;
/// let mut out = [0; OUTPUT];
/// let string = b"\x02\x00\x0b\x21\x00\x00\x64\x80\x00\x0eHi";
/// let blink = b"\x03\x00\x12\x22\x00\x00\x64\x00\x00\x00\x0cblnk\x00\x00\x00\x01";
///
/// let answer = relay.receive(0, Some(1000), string, &mut out);
/// assert_eq!(answer.outcome, Outcome::Kept(1));
///
/// let answer = relay.receive(0, Some(1000), blink, &mut out);
/// let facts = answer.outcome.facts().expect("the sample is joined");
/// assert_eq!((facts.string, facts.sample), (2, 14));
/// assert_eq!(&out[..facts.string], b"Hi");
/// assert_eq!(answer.next, Some(1100));
/// # Ok::<(), spindlefig::Refusal>(())
/// ```
///
/// The relay knows by its memory how many desks it has. Two are equal where all their memory is.
#[derive(Clone, PartialEq, Eq)]
pub struct Relay {
    tables: Tables,
}

/// What is lent to a call: the number at the front of the marks, and how much of each slice.
#[derive(Debug, Clone, Copy, PartialEq, Eq)]
pub struct Lent {
    /// What stands where set-up puts the number of desks.
    pub head: u32,
    /// How many places.
    pub places: usize,
    /// How many finished times.
    pub rows: usize,
    /// How many marks.
    pub marks: usize,
    /// How many bytes of descriptions.
    pub stores: usize,
}

/// How many samples are open; see [`Relay::counts`].
#[derive(Debug, Clone, Copy, PartialEq, Eq)]
pub struct Counts {
    /// Each desk's; 0 for a desk that is not there.
    pub open: [usize; DESKS],
    /// The common use: the sum, over all desks, of those beyond two.
    pub common: usize,
}

impl fmt::Debug for Relay {
    fn fmt(&self, f: &mut fmt::Formatter) -> fmt::Result {
        f.debug_struct("Relay")
            .field("desks", &self.desks())
            .finish_non_exhaustive()
    }
}

impl Relay {
    /// A fresh relay for 1 to 8 desks; another number is refusal 1.
    ///
    /// ```
    /// use spindlefig::{Refusal, Relay};
    ///
    /// assert_eq!(Relay::set_up(8)?.desks(), 8);
    /// assert_eq!(Relay::set_up(9).unwrap_err(), Refusal::Desk);
    /// # Ok::<(), Refusal>(())
    /// ```
    pub fn set_up(desks: usize) -> Result<Relay, Refusal> {
        match Tables::set_up(desks) {
            Ok(tables) => Ok(Relay { tables }),
            Err(number) => Err(Refusal::told(number as u64)),
        }
    }

    /// How many desks there are; they are counted from 0.
    pub fn desks(&self) -> usize {
        self.tables.desks()
    }

    /// How many samples are open, as the relay stores it: each desk's, and in all the common use.
    /// Nothing is counted for it.
    ///
    /// A desk's third open sample takes a common place, and leaves it when it ends:
    ///
    /// ```
    /// use spindlefig::{Relay, OUTPUT};
    ///
    /// let part = b"\x02\x00\x0b\x21\x00\x00\x64\x80\x00\x0eHi";
    /// let mut relay = Relay::set_up(2)?;
    /// for time in [1000, 2000, 3000] {
    ///     relay.receive(1, Some(time), part, &mut [0; OUTPUT]);
    /// }
    /// let counts = relay.counts();
    /// assert_eq!((counts.open[0], counts.open[1], counts.common), (0, 3, 1));
    ///
    /// relay.give_up(1, 1000)?;
    /// let counts = relay.counts();
    /// assert_eq!((counts.open[0], counts.open[1], counts.common), (0, 2, 0));
    /// # Ok::<(), spindlefig::Refusal>(())
    /// ```
    pub fn counts(&self) -> Counts {
        self.tables.counts()
    }

    /// Takes the unit at the front of the rest of a payload, and allocates nothing.
    ///
    /// `time` is the running time: the packet's timestamp for the first unit, then each answer's
    /// `next`. After whole and joined the sample stands at the front of `out`, which has to have
    /// [`OUTPUT`] bytes at least; what lies behind it stays. The string of a TYPE 1 unit and the data
    /// of a TYPE 2 one have to be well-formed by themselves.
    ///
    /// SDUR 0 is a duration that is not known yet: after a TYPE 1 unit or a last part with SDUR 0
    /// that refusals 1 to 4 and 17 let through, `next` is `None`, an unknown time. There all that
    /// they let through of TYPE 1 to 4 is [`Refusal::Untimed`], everything else is answered as ever,
    /// and the time stays unknown.
    ///
    /// ```
    /// use spindlefig::{Outcome, Refusal, Relay, OUTPUT};
    ///
    /// let mut relay = Relay::set_up(1)?;
    /// let mut out = [0; OUTPUT];
    /// let whole = b"\x01\x00\x0a\x80\x01\x5f\x90\x00\x02Hi";
    /// let answer = relay.receive(0, Some(1000), whole, &mut out);
    /// assert_eq!((answer.used, answer.next), (11, Some(91000)));
    /// assert!(matches!(answer.outcome, Outcome::Whole(_)));
    /// assert_eq!(&out[..2], b"Hi");
    ///
    /// let answer = relay.receive(0, Some(91000), b"\x01\x00\x01", &mut out);
    /// assert_eq!(answer.outcome, Outcome::Refused(Refusal::Frame));
    ///
    /// let half_a_letter = b"\x01\x00\x0a\x80\x01\x5f\x90\x00\x02n\xc3";
    /// let answer = relay.receive(0, Some(91000), half_a_letter, &mut out);
    /// assert_eq!((answer.used, answer.next), (11, Some(91000)));
    /// assert_eq!(answer.outcome, Outcome::Refused(Refusal::IllFormed));
    ///
    /// let live = b"\x01\x00\x0a\x80\x00\x00\x00\x00\x02Hi";
    /// let answer = relay.receive(0, Some(91000), live, &mut out);
    /// assert!(matches!(answer.outcome, Outcome::Whole(_)));
    /// assert_eq!(answer.next, None);
    /// let answer = relay.receive(0, answer.next, whole, &mut out);
    /// assert_eq!((answer.used, answer.next), (11, None));
    /// assert_eq!(answer.outcome, Outcome::Refused(Refusal::Untimed));
    /// # Ok::<(), Refusal>(())
    /// ```
    pub fn receive(
        &mut self,
        desk: usize,
        time: Option<u32>,
        rest: &[u8],
        out: &mut [u8],
    ) -> Answer {
        let known = usize::from(time.is_some());
        let time = time.unwrap_or_default();
        Answer::told(&self.tables.receive(desk, known, time, rest, out))
    }

    /// Goes through the units of a payload, handing the running time on: one item a unit. `time` is
    /// the packet's timestamp, which is known.
    ///
    /// It ends at the payload's end, and after an answer that used no bytes (refusal 1). An empty
    /// payload has no units.
    ///
    /// ```
    /// use spindlefig::{Outcome, Relay};
    ///
    /// let payload = b"\x01\x00\x0a\x80\x01\x5f\x90\x00\x02Hi\x06\x00\x02";
    /// let mut relay = Relay::set_up(1)?;
    /// let heard: Vec<_> = relay.units(0, 0, payload).collect();
    /// assert_eq!(heard.len(), 2);
    /// assert_eq!(heard[0].sample, b"Hi");
    /// assert_eq!((heard[1].at, heard[1].time), (11, Some(90000)));
    /// assert_eq!(heard[1].answer.outcome, Outcome::Skipped(6));
    /// # Ok::<(), spindlefig::Refusal>(())
    /// ```
    pub fn units<'a>(&'a mut self, desk: usize, time: u32, payload: &'a [u8]) -> Units<'a> {
        self.units_from(desk, Some(time), payload)
    }

    /// The same for what is left of a payload, from a running time that may be unknown.
    ///
    /// ```
    /// use spindlefig::{Outcome, Refusal, Relay};
    ///
    /// let rest = b"\x01\x00\x0a\x80\x01\x5f\x90\x00\x02Hi\x06\x00\x02";
    /// let mut relay = Relay::set_up(1)?;
    /// let heard: Vec<_> = relay.units_from(0, None, rest).collect();
    /// assert_eq!(heard[0].answer.outcome, Outcome::Refused(Refusal::Untimed));
    /// assert_eq!((heard[1].at, heard[1].time), (11, None));
    /// assert_eq!(heard[1].answer.outcome, Outcome::Skipped(6));
    /// # Ok::<(), Refusal>(())
    /// ```
    pub fn units_from<'a>(
        &'a mut self,
        desk: usize,
        time: Option<u32>,
        rest: &'a [u8],
    ) -> Units<'a> {
        Units {
            relay: self,
            desk,
            time,
            payload: rest,
            at: 0,
            stopped: false,
        }
    }

    /// Gives up the desk's open sample of this time, which is a known one always: its place is free,
    /// and parts of it that come now are late.
    ///
    /// ```
    /// use spindlefig::{Outcome, Refusal, Relay, OUTPUT};
    ///
    /// let part = b"\x02\x00\x0b\x21\x00\x00\x64\x80\x00\x0eHi";
    /// let mut relay = Relay::set_up(1)?;
    /// let mut out = [0; OUTPUT];
    /// assert_eq!(relay.receive(0, Some(1000), part, &mut out).outcome, Outcome::Kept(1));
    ///
    /// assert_eq!(relay.give_up(0, 1000), Ok(()));
    /// assert_eq!(relay.give_up(0, 1000), Err(Refusal::NotOpen));
    /// let answer = relay.receive(0, Some(1000), part, &mut out);
    /// assert_eq!(answer.outcome, Outcome::Refused(Refusal::Late));
    /// # Ok::<(), Refusal>(())
    /// ```
    pub fn give_up(&mut self, desk: usize, time: u32) -> Result<(), Refusal> {
        match self.tables.give_up(desk, time) {
            0 => Ok(()),
            number => Err(Refusal::told(number as u64)),
        }
    }

    /// The description of an index: the desk's own (0 to 127) or the style book's (128 to 254).
    /// Empty where there is none.
    ///
    /// ```
    /// use spindlefig::{Outcome, Relay, OUTPUT};
    ///
    /// let mut relay = Relay::set_up(2)?;
    /// let answer = relay.receive(1, Some(0), b"\x05\x00\x08\x07green", &mut [0; OUTPUT]);
    /// assert_eq!(answer.outcome, Outcome::Described);
    /// assert_eq!(relay.lookup(1, 7, &[]), b"green");
    /// assert!(relay.lookup(0, 7, &[]).is_empty());
    ///
    /// let mut book = b"\x80\x00\x00\x05black".to_vec();
    /// book.resize(260, 0);
    /// assert_eq!(relay.lookup(0, 128, &book), b"black");
    /// # Ok::<(), spindlefig::Refusal>(())
    /// ```
    pub fn lookup(&self, desk: usize, index: usize, book: &[u8]) -> Vec<u8> {
        let mut out = [0; DESCRIPTION];
        let len = self.tables.lookup(desk, index, book, &mut out);
        out[..len].to_vec()
    }

    /// Calls with less memory or another number of desks in it, to see what is refused then; nothing
    /// is lent beyond what there is. Afterwards all of it is lent again, with the number that stood.
    ///
    /// A number that is not 1 to 8, or memory too short for it, is refusal 1 and leaves all as it
    /// stood. Another number that is let through makes tables that set-up did not make: then every
    /// call is still safe, and no more is promised.
    ///
    /// ```
    /// use spindlefig::{Lent, Refusal, Relay};
    ///
    /// let mut relay = Relay::set_up(2)?;
    /// let all = usize::MAX;
    /// let nine = Lent { head: 9, places: all, rows: all, marks: all, stores: all };
    /// assert_eq!(relay.lending(nine, |relay| relay.give_up(0, 5)), Err(Refusal::Desk));
    /// let short = Lent { head: 2, places: 7, ..nine };
    /// assert_eq!(relay.lending(short, |relay| relay.give_up(0, 5)), Err(Refusal::Desk));
    /// assert_eq!(relay.give_up(0, 5), Err(Refusal::NotOpen));
    /// # Ok::<(), Refusal>(())
    /// ```
    pub fn lending<T>(&mut self, lent: Lent, call: impl FnOnce(&mut Relay) -> T) -> T {
        let before = self.tables.lend(lent);
        let answer = call(self);
        self.tables.lend(before);
        answer
    }
}

/// One unit of a payload, and what became of it.
#[derive(Debug, Clone, PartialEq, Eq)]
pub struct Heard {
    /// Where the unit begins in the payload.
    pub at: usize,
    /// Its running time; `None` where it is unknown.
    pub time: Option<u32>,
    /// The relay's answer.
    pub answer: Answer,
    /// The sample that is handed out, string and modifiers; empty but for whole and joined.
    pub sample: Vec<u8>,
}

/// The units of a payload; see [`Relay::units`].
#[derive(Debug)]
pub struct Units<'a> {
    relay: &'a mut Relay,
    desk: usize,
    time: Option<u32>,
    payload: &'a [u8],
    at: usize,
    stopped: bool,
}

impl Iterator for Units<'_> {
    type Item = Heard;

    fn next(&mut self) -> Option<Heard> {
        if self.stopped || self.at == self.payload.len() {
            return None;
        }
        let mut out = [0; OUTPUT];
        let (at, time) = (self.at, self.time);
        let answer = self
            .relay
            .receive(self.desk, time, &self.payload[at..], &mut out);
        self.at += answer.used;
        self.time = answer.next;
        self.stopped = answer.used == 0;
        let len = answer.outcome.facts().map_or(0, |facts| facts.sample);
        Some(Heard {
            at,
            time,
            answer,
            sample: out[..len].to_vec(),
        })
    }
}
