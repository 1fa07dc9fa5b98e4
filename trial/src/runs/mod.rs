//! `m7700_run` beside the simulator's run.

pub mod alone;
pub mod guarantee;
pub mod lister;
pub mod lists;

use crate::library::{m7700_check, m7700_run, m7700_step};
use crate::steps::noise::Noise;
use crate::tally::{Named, Tally};
use lister::Lister;
use lists::List;
use sim7700::generate::{bank_runs, depth_runs, Rng};

/// The answers with 01's words.
pub const NUMBERS: [Named; 14] = [
    (0, "done"),
    (1, "length"),
    (2, "base"),
    (11, "RAM"),
    (12, "state"),
    (13, "steps"),
    (20, "outside"),
    (21, "uncarried"),
    (22, "halt"),
    (23, "unmapped"),
    (24, "astray"),
    (25, "deep"),
    (26, "image store"),
    (27, "decimal"),
];

/// Those of the runs in a list over an accepted image.
pub const LIST_NUMBERS: [Named; 10] = [
    (0, "done"),
    (11, "RAM"),
    (12, "state"),
    (13, "steps"),
    (22, "halt"),
    (23, "unmapped"),
    (24, "astray"),
    (25, "deep"),
    (26, "image store"),
    (27, "decimal"),
];

/// Each number has to occur so often.
const LEAST: u64 = 10;
/// Single runs for each list of runs.
const ALONE: u64 = 5;

/// Compares the library with the simulator: the tallies of `tried`.
pub fn trial(count: u64, seed: u64) -> [Tally; 2] {
    tried(Lister::new(m7700_check, m7700_step, m7700_run), count, seed)
}

/// Compares a machine with the simulator's: the longest run, runs to each
/// number of open calls and around the ends of banks, `count` drawn ones, and a
/// list of runs over an accepted program for every fifth. The tallies of runs
/// alone and in lists.
pub fn tried(mut lister: Lister, count: u64, seed: u64) -> [Tally; 2] {
    let mut rng = Rng::new(seed);
    let noise = Noise::new(&mut rng);
    let mut alone = Tally::of("runs alone", &NUMBERS, LEAST);
    let mut listed = Tally::of("runs in lists", &LIST_NUMBERS, LEAST);
    alone.note(lister.alone(&alone::longest()));
    for case in depth_runs(&mut rng).iter().chain(&bank_runs(&mut rng)) {
        alone.note(lister.alone(case));
    }
    for turn in 0..count {
        alone.note(lister.alone(&alone::drawn(&mut rng, &noise)));
        if turn % ALONE == 0 {
            lister.go_through(&List::drawn(&mut rng, &noise), &mut listed);
        }
    }
    let (lists, runs) = (count.div_ceil(ALONE), listed.cases());
    println!("runs: {count} drawn alone, {runs} in {lists} lists, seed {seed}");
    let (steps, calls) = (lister.steps(), lister.calls());
    println!("runs: {steps} steps of the lists, {calls} of them calls, each at a marked start");
    [alone, listed]
}
