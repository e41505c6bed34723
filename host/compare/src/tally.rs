//! How often each outcome and each refusal was seen.

use second::Outcome;
use std::collections::BTreeMap;
use std::fmt::{self, Display, Formatter};

const REFUSALS: usize = 18;

#[derive(Default)]
pub struct Tally {
    calls: u64,
    outcomes: BTreeMap<(&'static str, &'static str), u64>,
    refusals: [u64; REFUSALS],
}

impl Tally {
    /// Calls counted so far; set-ups and what is left out are not among them.
    pub fn calls(&self) -> u64 {
        self.calls
    }

    pub fn uncounted(&mut self, call: &'static str, outcome: &'static str) {
        *self.outcomes.entry((call, outcome)).or_default() += 1;
    }

    pub fn add(&mut self, call: &'static str, outcome: &'static str) {
        self.calls += 1;
        self.uncounted(call, outcome);
    }

    pub fn refused(&mut self, call: &'static str, number: u8) {
        self.add(call, "refused");
        self.refusals[usize::from(number) - 1] += 1;
    }

    pub fn received(&mut self, outcome: &Outcome) {
        let name = match outcome {
            Outcome::End => "end",
            Outcome::Whole(_) => "whole",
            Outcome::Joined(_) => "joined",
            Outcome::Kept(_) => "kept",
            Outcome::Repeat => "repeat",
            Outcome::Described => "described",
            Outcome::Skipped(_) => "skipped",
            Outcome::Refused(number) => return self.refused("receive", *number),
        };
        self.add("receive", name);
    }

    /// Whether the running time was known before a unit and behind it.
    pub fn timed(&mut self, time: Option<u32>, next: Option<u32>) {
        let name = match (time, next) {
            (Some(_), Some(_)) => "known",
            (Some(_), None) => "lost",
            (None, _) => "unknown",
        };
        self.uncounted("time", name);
    }

    /// The refusals seen fewer times than `least`.
    pub fn rarer_than(&self, least: u64) -> Vec<usize> {
        let rare = |number: &usize| self.refusals[number - 1] < least;
        (1..=REFUSALS).filter(rare).collect()
    }
}

impl Display for Tally {
    fn fmt(&self, f: &mut Formatter<'_>) -> fmt::Result {
        for ((call, outcome), times) in &self.outcomes {
            writeln!(f, "{call:<10}{outcome:<12}{times:>10}")?;
        }
        for (before, times) in self.refusals.iter().enumerate() {
            writeln!(f, "{:<10}{:<12}{times:>10}", "refusal", before + 1)?;
        }
        write!(f, "{:<22}{:>10}", "calls", self.calls)
    }
}
