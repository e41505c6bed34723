//! Plays the same calls to three opinions and compares all they say.

use crate::call::{Call, Run, Time};
use crate::opinion::{Opinion, Tools, Written};
use crate::tally::Tally;
use second::{is_well_formed, Answer, Lent, Outcome, Step};
use std::fmt::{Arguments, Debug};

/// Each output lies in a buffer of this length, and the bytes beyond it are compared too.
pub const BUFFER: usize = 2048;

/// Where the opinions differed.
#[derive(Debug)]
pub struct Difference {
    /// The count of calls of the run up to and with this one.
    pub calls: usize,
    pub what: String,
}

/// Plays a run until its end, a difference, or as many calls as `most` in all.
pub fn play<A: Opinion + Tools, B: Opinion + Tools, C: Opinion>(
    run: &Run,
    most: u64,
    tally: &mut Tally,
) -> Result<(), Difference> {
    let at_set_up = |what| Difference { calls: 0, what };
    let player = Player::<A, B, C>::set_up(run.n, most, tally).map_err(at_set_up)?;
    let Some(mut player) = player else {
        return Ok(());
    };
    for (before, call) in run.calls.iter().enumerate() {
        if player.is_done() {
            break;
        }
        let calls = before + 1;
        player
            .call(call)
            .map_err(|what| Difference { calls, what })?;
    }
    Ok(())
}

struct Player<'a, A, B, C> {
    relay: A,
    second: B,
    rival: C,
    tally: &'a mut Tally,
    most: u64,
    outputs: Outputs,
}

/// The buffers whose fronts are lent as outputs, in the order of the opinions.
struct Outputs {
    buffers: [[u8; BUFFER]; 3],
    pattern: u8,
}

impl Outputs {
    /// All outputs, filled anew with a pattern.
    fn lend(&mut self, output: usize) -> [&mut [u8]; 3] {
        self.pattern = self.pattern.wrapping_add(0x53);
        self.buffers.as_flattened_mut().fill(self.pattern);
        self.buffers.each_mut().map(|buffer| &mut buffer[..output])
    }

    fn same(&self) -> Result<(), String> {
        let [relay, second, rival] = &self.buffers;
        same_bytes("second", relay, second)?;
        same_bytes("rival", relay, rival)
    }

    /// The string of a sample that is handed out is well-formed in the U that is told.
    fn well_formed(&self, outcome: &Outcome) -> Result<(), String> {
        let (Outcome::Whole(facts) | Outcome::Joined(facts)) = outcome else {
            return Ok(());
        };
        let string = self.buffers[0].get(..facts.string);
        let good = string.is_some_and(|string| is_well_formed(facts.u.into(), string));
        same(
            format_args!("well-formed string of {facts:?}"),
            &good,
            "the rule",
            &true,
        )
    }

    /// The same for what only two were asked.
    fn same_for_two(&self) -> Result<(), String> {
        let [relay, second, _] = &self.buffers;
        same_bytes("second", relay, second)
    }
}

fn same_bytes(name: &str, relay: &[u8; BUFFER], other: &[u8; BUFFER]) -> Result<(), String> {
    if relay == other {
        return Ok(());
    }
    let place = relay
        .iter()
        .zip(other)
        .position(|(ours, theirs)| ours != theirs);
    let place = place.unwrap_or(BUFFER - 1);
    let what = format_args!("byte {place} of the output");
    same(what, &relay[place], name, &other[place])
}

fn same<T: PartialEq + Debug>(
    what: Arguments<'_>,
    relay: &T,
    name: &str,
    other: &T,
) -> Result<(), String> {
    if relay == other {
        return Ok(());
    }
    Err(format!(
        "{what}: the relay says {relay:?}, {name} says {other:?}"
    ))
}

/// What all three say, if it is the same.
fn agreed<T: PartialEq + Debug>(
    what: Arguments<'_>,
    relay: T,
    second: T,
    rival: T,
) -> Result<T, String> {
    same(what, &relay, "second", &second)?;
    same(what, &relay, "rival", &rival)?;
    Ok(relay)
}

impl<'a, A: Opinion + Tools, B: Opinion + Tools, C: Opinion> Player<'a, A, B, C> {
    /// `None` where all refuse.
    fn set_up(n: usize, most: u64, tally: &'a mut Tally) -> Result<Option<Self>, String> {
        let (relay, second, rival) = (A::set_up(n), B::set_up(n), C::set_up(n));
        agreed(
            format_args!("set-up"),
            relay.as_ref().err(),
            second.as_ref().err(),
            rival.as_ref().err(),
        )?;
        let (Ok(relay), Ok(second), Ok(rival)) = (relay, second, rival) else {
            tally.uncounted("set-up", "refused");
            return Ok(None);
        };
        tally.uncounted("set-up", "done");
        let outputs = Outputs {
            buffers: [[0; BUFFER]; 3],
            pattern: 0,
        };
        let mut player = Player {
            relay,
            second,
            rival,
            tally,
            most,
            outputs,
        };
        player.hold_counts()?;
        Ok(Some(player))
    }

    /// Holds the numbers that are stored against those that the second one counts. It is done after
    /// set-up and after every call on the relays, whatever it answers.
    fn hold_counts(&mut self) -> Result<(), String> {
        agreed(
            format_args!("counts"),
            self.relay.counts(),
            self.second.counts(),
            self.rival.counts(),
        )?;
        self.tally.uncounted("counts", "held");
        Ok(())
    }

    fn is_done(&self) -> bool {
        self.tally.calls() >= self.most
    }

    fn call(&mut self, call: &Call) -> Result<(), String> {
        match call {
            Call::Receive {
                desk,
                time,
                payload,
                output,
            } => self.receive(*desk, *time, payload, *output),
            Call::GiveUp { desk, time } => self.give_up(*desk, *time),
            Call::Look { desk, index, book } => self.look(*desk, *index, book),
            Call::Write {
                caption,
                m,
                k,
                output,
            } => {
                let [relay, second, _] = self.outputs.lend(*output);
                let relay = A::write(caption, *m, *k, relay);
                let second = B::write(caption, *m, *k, second);
                self.written("write", relay, second)
            }
            Call::Describe {
                sidx,
                d,
                m,
                k,
                output,
            } => {
                let [relay, second, _] = self.outputs.lend(*output);
                let relay = A::describe(*sidx, d, *m, *k, relay);
                let second = B::describe(*sidx, d, *m, *k, second);
                self.written("describe", relay, second)
            }
            Call::Check { book } => self.check(book),
            Call::Walk { modifiers, at } => self.step(modifiers, *at),
            Call::Lent { lent, call } => self.lent(*lent, call),
        }
    }

    fn receive(
        &mut self,
        desk: usize,
        mut time: Option<u32>,
        payload: &[u8],
        output: usize,
    ) -> Result<(), String> {
        let mut at = 0;
        loop {
            let rest = &payload[at..];
            let [relay, second, rival] = self.outputs.lend(output);
            let answer = agreed(
                format_args!("unit at {at}, time {}", Time(time)),
                self.relay.receive(desk, time, rest, relay),
                self.second.receive(desk, time, rest, second),
                self.rival.receive(desk, time, rest, rival),
            )?;
            self.outputs.same()?;
            self.outputs.well_formed(&answer.outcome)?;
            self.hold_counts()?;
            self.tally.received(&answer.outcome);
            self.tally.timed(time, answer.next);
            at += answer.used;
            time = answer.next;
            if answer.used == 0 || at == payload.len() || self.is_done() {
                return Ok(());
            }
        }
    }

    fn give_up(&mut self, desk: usize, time: u32) -> Result<(), String> {
        let given_up = agreed(
            format_args!("give-up"),
            self.relay.give_up(desk, time),
            self.second.give_up(desk, time),
            self.rival.give_up(desk, time),
        )?;
        self.hold_counts()?;
        match given_up {
            Ok(()) => self.tally.add("give-up", "given up"),
            Err(number) => self.tally.refused("give-up", number),
        }
        Ok(())
    }

    fn look(&mut self, desk: usize, index: usize, book: &[u8]) -> Result<(), String> {
        let shown = agreed(
            format_args!("look"),
            self.relay.look(desk, index, book),
            self.second.look(desk, index, book),
            self.rival.look(desk, index, book),
        )?;
        self.hold_counts()?;
        let outcome = if shown.is_empty() { "empty" } else { "shown" };
        self.tally.add("look", outcome);
        Ok(())
    }

    /// A call with other memory than set-up left. Only the proved relay is lent any; what it has to
    /// say is told by the second one's rule for refusal 1. Where that lets the call through, the
    /// tables are not what set-up made for so many desks, and the call is left out.
    fn lent(&mut self, lent: Lent, call: &Call) -> Result<(), String> {
        let stranger = |(desk, lent): (usize, Lent)| lent.desks().map_or(true, |n| desk >= n);
        if !call.takes(lent).is_some_and(stranger) {
            self.tally.uncounted("lent", "left out");
            return Ok(());
        }
        let Some((refused, stayed)) = self.refused_with(lent, call) else {
            self.tally.uncounted("lent", "left out");
            return Ok(());
        };
        refused?;
        self.outputs.same()?;
        same(format_args!("memory that stays"), &stayed, "second", &true)?;
        self.hold_counts()?;
        match call {
            Call::Look { .. } => self.tally.add("lent", "empty"),
            _ => self.tally.refused("lent", 1),
        }
        Ok(())
    }

    /// Whether the relay refuses by 1 with this memory, and whether the memory stayed as it was.
    fn refused_with(&mut self, lent: Lent, call: &Call) -> Option<(Result<(), String>, bool)> {
        let what = format_args!("{lent:?}");
        let output = match call {
            Call::Receive { output, .. } => *output,
            _ => 0,
        };
        let [out, _, _] = self.outputs.lend(output);
        self.relay.lending(lent, |relay| match call {
            Call::Receive {
                desk,
                time,
                payload,
                ..
            } => {
                let refused = Answer {
                    used: 0,
                    next: *time,
                    outcome: Outcome::Refused(1),
                };
                let answer = relay.receive(*desk, *time, payload, out);
                same(what, &answer, "second", &refused)
            }
            Call::GiveUp { desk, time } => {
                same(what, &relay.give_up(*desk, *time), "second", &Err(1))
            }
            Call::Look { desk, index, book } => {
                let nothing = Vec::new();
                same(what, &relay.look(*desk, *index, book), "second", &nothing)
            }
            _ => Ok(()),
        })
    }

    fn written(
        &mut self,
        call: &'static str,
        relay: Written,
        second: Written,
    ) -> Result<(), String> {
        same(format_args!("{call}"), &relay, "second", &second)?;
        self.outputs.same_for_two()?;
        match relay {
            Ok(_) => self.tally.add(call, "written"),
            Err(number) => self.tally.refused(call, number),
        }
        Ok(())
    }

    fn check(&mut self, book: &[u8]) -> Result<(), String> {
        let relay = A::check(book);
        same(format_args!("book"), &relay, "second", &B::check(book))?;
        match relay {
            Ok(_) => self.tally.add("book", "good"),
            Err(_) => self.tally.refused("book", 16),
        }
        Ok(())
    }

    fn step(&mut self, modifiers: &[u8], at: usize) -> Result<(), String> {
        let relay = A::step(modifiers, at);
        let second = B::step(modifiers, at);
        same(format_args!("walk"), &relay, "second", &second)?;
        match relay {
            Step::End => self.tally.add("walk", "end"),
            Step::Box { .. } => self.tally.add("walk", "box"),
            Step::Refused => self.tally.refused("walk", 15),
        }
        Ok(())
    }
}
