//! What the races share: the timer, and the sort-merge joins that are timed.

mod joins;

pub use joins::{End, Joined, Key, columns, joined};

use std::hint::black_box;
use std::time::Instant;

/// A side of a race: how many rounds, and a run over all the work that answers some number.
pub struct Side<'a> {
    pub rounds: usize,
    pub run: Box<dyn FnMut() -> u64 + 'a>,
}

/// The best time of each side, in ns a run; infinite where it has no round. Samples are interleaved: one of each side in turn.
pub fn best(sides: &mut [Side]) -> Vec<f64> {
    let rounds = sides.iter().map(|side| side.rounds).max().unwrap_or(0);
    let mut best = vec![f64::INFINITY; sides.len()];
    for round in 0..rounds {
        for (side, best) in sides.iter_mut().zip(&mut best) {
            if round >= side.rounds {
                continue;
            }
            let start = Instant::now();
            black_box((side.run)());
            *best = best.min(start.elapsed().as_nanos() as f64);
        }
    }
    best
}
