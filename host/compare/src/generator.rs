//! Makes random and damaged runs.

mod books;
mod boxes;
mod cut;
mod scene;
mod units;

use crate::call::Run;
use crate::random::Random;
use scene::Scene;

/// Desk counts to set up, right and wrong.
const DESKS: [usize; 12] = [0, 1, 1, 2, 2, 3, 4, 5, 6, 7, 8, 9];

/// A run of a few hundred calls from a fresh set-up.
pub fn run(random: &mut Random) -> Run {
    let n = match random.below(200) {
        0 => random.pick(&[10, 255, usize::MAX]),
        _ => random.pick(&DESKS),
    };
    if !(1..=8).contains(&n) {
        return Run {
            n,
            calls: Vec::new(),
        };
    }
    let most = random.between(100, 400);
    let mut scene = Scene::new(n, random);
    while scene.calls.len() < most {
        scene.turn();
    }
    Run {
        n,
        calls: scene.calls,
    }
}
