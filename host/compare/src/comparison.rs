//! Many runs, one after the other.

use crate::call::Run;
use crate::generator;
use crate::opinion::{Opinion, Tools};
use crate::player::{self, Difference};
use crate::random::Random;
use crate::tally::Tally;

/// The run where a difference was found, and the difference.
#[derive(Debug)]
pub struct Found {
    pub run: Run,
    pub difference: Difference,
}

/// Plays random runs until a difference or until `count` calls are compared.
pub fn compare<A: Opinion + Tools, B: Opinion + Tools, C: Opinion>(
    seed: u64,
    count: u64,
    tally: &mut Tally,
) -> Result<(), Found> {
    let mut random = Random::new(seed);
    while tally.calls() < count {
        let run = generator::run(&mut random);
        if let Err(difference) = player::play::<A, B, C>(&run, count, tally) {
            return Err(Found { run, difference });
        }
    }
    Ok(())
}
