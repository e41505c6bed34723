//! The calls that the relays answer, in the types of the second one.

use rival::Rival;
use second::{Answer, Counts, Facts, Lent, Outcome, Second, Step};
use spindlefig::{Refusal, Relay, Writer};

/// A sample as the writer takes it.
#[derive(Debug, Clone)]
pub struct Caption {
    pub u: usize,
    pub sidx: usize,
    pub sdur: usize,
    pub string: Vec<u8>,
    pub modifiers: Vec<u8>,
}

/// A payload's length and how many payloads there are, or a refusal.
pub type Written = Result<(usize, usize), u8>;

/// The calls of a relay.
pub trait Opinion: Sized {
    fn set_up(n: usize) -> Result<Self, u8>;
    fn receive(&mut self, desk: usize, time: Option<u32>, rest: &[u8], out: &mut [u8]) -> Answer;
    fn give_up(&mut self, desk: usize, time: u32) -> Result<(), u8>;
    fn look(&self, desk: usize, index: usize, book: &[u8]) -> Vec<u8>;

    /// How many samples are open: counted, or as it is stored.
    fn counts(&self) -> Counts;

    /// Calls with this memory lent; tells also whether the memory stayed as it was. `None` for a
    /// relay that is lent none.
    fn lending<T>(&mut self, _: Lent, _: impl FnOnce(&mut Self) -> T) -> Option<(T, bool)> {
        None
    }
}

/// The calls that need no relay.
pub trait Tools {
    fn write(caption: &Caption, m: usize, k: usize, out: &mut [u8]) -> Written;
    fn describe(sidx: usize, d: &[u8], m: usize, k: usize, out: &mut [u8]) -> Written;
    fn check(book: &[u8]) -> Result<usize, usize>;
    fn step(modifiers: &[u8], at: usize) -> Step<'_>;
}

impl Opinion for Second {
    fn set_up(n: usize) -> Result<Second, u8> {
        Second::set_up(n)
    }

    fn receive(&mut self, desk: usize, time: Option<u32>, rest: &[u8], out: &mut [u8]) -> Answer {
        Second::receive(self, desk, time, rest, out)
    }

    fn give_up(&mut self, desk: usize, time: u32) -> Result<(), u8> {
        Second::give_up(self, desk, time)
    }

    fn look(&self, desk: usize, index: usize, book: &[u8]) -> Vec<u8> {
        Second::look(self, desk, index, book)
    }

    fn counts(&self) -> Counts {
        Second::counts(self)
    }
}

impl Tools for Second {
    fn write(c: &Caption, m: usize, k: usize, out: &mut [u8]) -> Written {
        second::write(c.u, c.sidx, c.sdur, &c.string, &c.modifiers, m, k, out)
    }

    fn describe(sidx: usize, d: &[u8], m: usize, k: usize, out: &mut [u8]) -> Written {
        second::describe(sidx, d, m, k, out)
    }

    fn check(book: &[u8]) -> Result<usize, usize> {
        second::check(book)
    }

    fn step(modifiers: &[u8], at: usize) -> Step<'_> {
        second::step(modifiers, at)
    }
}

impl Opinion for Rival {
    fn set_up(n: usize) -> Result<Rival, u8> {
        Rival::set_up(n)
    }

    fn receive(&mut self, desk: usize, time: Option<u32>, rest: &[u8], out: &mut [u8]) -> Answer {
        let answer = Rival::receive(self, desk, time, rest, out);
        Answer {
            used: answer.used,
            next: answer.next,
            outcome: rivals_outcome(answer.outcome),
        }
    }

    fn give_up(&mut self, desk: usize, time: u32) -> Result<(), u8> {
        Rival::give_up(self, desk, time)
    }

    fn look(&self, desk: usize, index: usize, book: &[u8]) -> Vec<u8> {
        Rival::look(self, desk, index, book).to_vec()
    }

    fn counts(&self) -> Counts {
        let (open, common) = Rival::counts(self);
        Counts { open, common }
    }
}

impl Opinion for Relay {
    fn set_up(n: usize) -> Result<Relay, u8> {
        Relay::set_up(n).map_err(Refusal::number)
    }

    fn receive(&mut self, desk: usize, time: Option<u32>, rest: &[u8], out: &mut [u8]) -> Answer {
        let answer = Relay::receive(self, desk, time, rest, out);
        Answer {
            used: answer.used,
            next: answer.next,
            outcome: outcome(answer.outcome),
        }
    }

    fn give_up(&mut self, desk: usize, time: u32) -> Result<(), u8> {
        Relay::give_up(self, desk, time).map_err(Refusal::number)
    }

    fn look(&self, desk: usize, index: usize, book: &[u8]) -> Vec<u8> {
        self.lookup(desk, index, book)
    }

    fn counts(&self) -> Counts {
        let spindlefig::Counts { open, common } = Relay::counts(self);
        Counts { open, common }
    }

    fn lending<T>(&mut self, lent: Lent, call: impl FnOnce(&mut Self) -> T) -> Option<(T, bool)> {
        let lent = spindlefig::Lent {
            head: lent.head,
            places: lent.places,
            rows: lent.rows,
            marks: lent.marks,
            stores: lent.stores,
        };
        Some(Relay::lending(self, lent, |relay| {
            let before = relay.clone();
            let answer = call(relay);
            (answer, *relay == before)
        }))
    }
}

impl Tools for Relay {
    fn write(c: &Caption, m: usize, k: usize, out: &mut [u8]) -> Written {
        let caption = spindlefig::Caption {
            u: c.u,
            sidx: c.sidx,
            sdur: c.sdur,
            string: &c.string,
            modifiers: &c.modifiers,
        };
        written(Writer::new(m).write(&caption, k, out))
    }

    fn describe(sidx: usize, d: &[u8], m: usize, k: usize, out: &mut [u8]) -> Written {
        written(Writer::new(m).describe(sidx, d, k, out))
    }

    fn check(book: &[u8]) -> Result<usize, usize> {
        spindlefig::check_book(book).map_err(|bad| bad.0)
    }

    fn step(modifiers: &[u8], at: usize) -> Step<'_> {
        match spindlefig::step(modifiers, at) {
            spindlefig::Step::End => Step::End,
            spindlefig::Step::Box {
                kind,
                contents,
                next,
            } => Step::Box {
                kind,
                contents,
                next,
            },
            spindlefig::Step::Refused(_) => Step::Refused,
        }
    }
}

fn written(written: Result<spindlefig::Written, Refusal>) -> Written {
    let written = written.map_err(Refusal::number)?;
    Ok((written.len, written.count))
}

fn outcome(outcome: spindlefig::Outcome) -> Outcome {
    match outcome {
        spindlefig::Outcome::End => Outcome::End,
        spindlefig::Outcome::Whole(told) => Outcome::Whole(facts(told)),
        spindlefig::Outcome::Joined(told) => Outcome::Joined(facts(told)),
        spindlefig::Outcome::Kept(missing) => Outcome::Kept(missing),
        spindlefig::Outcome::Repeat => Outcome::Repeat,
        spindlefig::Outcome::Described => Outcome::Described,
        spindlefig::Outcome::Skipped(kind) => Outcome::Skipped(kind),
        spindlefig::Outcome::Refused(refusal) => Outcome::Refused(refusal.number()),
    }
}

fn facts(told: spindlefig::Facts) -> Facts {
    Facts {
        time: told.time,
        u: told.u,
        sidx: told.sidx,
        sdur: told.sdur,
        string: told.string,
        sample: told.sample,
    }
}

fn rivals_outcome(outcome: rival::Outcome) -> Outcome {
    match outcome {
        rival::Outcome::End => Outcome::End,
        rival::Outcome::Whole(told) => Outcome::Whole(rivals_facts(told)),
        rival::Outcome::Joined(told) => Outcome::Joined(rivals_facts(told)),
        rival::Outcome::Kept(missing) => Outcome::Kept(missing),
        rival::Outcome::Repeat => Outcome::Repeat,
        rival::Outcome::Described => Outcome::Described,
        rival::Outcome::Skipped(kind) => Outcome::Skipped(kind),
        rival::Outcome::Refused(number) => Outcome::Refused(number),
    }
}

fn rivals_facts(told: rival::Facts) -> Facts {
    Facts {
        time: told.time,
        u: told.u,
        sidx: told.sidx,
        sdur: told.sdur,
        string: told.string,
        sample: told.sample,
    }
}
