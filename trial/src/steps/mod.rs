//! `m7700_step` beside the simulator's step.

pub mod calls;
pub mod coverage;
pub mod edges;
pub mod noise;
pub mod random;
pub mod refusals;

use crate::library::m7700_step;
use crate::machine::{Call, StepCall, Subject};
use crate::tally::{Named, Tally};
use coverage::Coverage;
use noise::Noise;
use sim7700::generate::{Rng, RunCase};

/// The answers with 01's words.
pub const NUMBERS: [Named; 13] = [
    (0, "completed"),
    (1, "length"),
    (2, "base"),
    (11, "RAM"),
    (12, "state"),
    (20, "outside"),
    (21, "uncarried"),
    (22, "halt"),
    (23, "unmapped"),
    (24, "astray"),
    (25, "deep"),
    (26, "image store"),
    (27, "decimal"),
];

/// Each number, and each carried code at each pair of widths, has to occur so
/// often.
const LEAST: u64 = 10;

/// Compares the library with the simulator: the tallies of `tried`.
pub fn trial(count: u64, seed: u64) -> [Tally; 2] {
    tried(m7700_step, count, seed)
}

/// Compares a step with the simulator's: the sweeps, then `count` steps drawn
/// at edges and as many at random. The tallies of edges and of the rest.
pub fn tried(step: StepCall, count: u64, seed: u64) -> [Tally; 2] {
    let mut rng = Rng::new(seed);
    let noise = Noise::new(&mut rng);
    let mut subject = Subject::new(Call::Step(step));
    let mut coverage = Coverage::default();
    let mut note = |tally: &mut Tally, case: &RunCase| {
        let outcome = subject.compare(case).map(|after| after.number());
        if outcome == Ok(0) {
            coverage.note(case);
        }
        tally.note(outcome);
    };
    let mut edges = Tally::of("at edges", &NUMBERS, LEAST);
    let mut random = Tally::of("at random", &NUMBERS, LEAST);
    edges::swept(&mut rng, |case| note(&mut edges, case));
    let swept = edges.cases();
    println!("steps: {swept} swept, {count} drawn at edges, {count} at random, seed {seed}");
    for turn in 0..count {
        note(&mut edges, &edges::drawn(&mut rng, &noise, turn as usize));
        note(&mut random, &random::drawn(&mut rng, &noise));
    }
    coverage.report(LEAST, &mut edges);
    [edges, random]
}
