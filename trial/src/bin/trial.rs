//! trial check|lists|print|locate|build|explain|steps|runs [CASES] [SEED]:
//! compares the library with the simulator.

use std::env;
use std::process::ExitCode;
use trial7700::tally::Tally;
use trial7700::{build, check, explain, faults, lists, locate, print, runs, steps};

/// A trial with its name.
type Trial = (&'static str, fn(u64, u64) -> Vec<Tally>);

const TRIALS: [Trial; 8] = [
    ("check", |cases, seed| vec![check::trial(cases, seed)]),
    ("lists", |cases, seed| lists::trial(cases, seed).into()),
    ("print", |cases, seed| vec![print::trial(cases, seed)]),
    ("locate", |cases, seed| vec![locate::trial(cases, seed)]),
    ("build", |cases, seed| vec![build::trial(cases, seed)]),
    ("explain", |cases, seed| vec![explain::trial(cases, seed)]),
    ("steps", |cases, seed| steps::trial(cases, seed).into()),
    ("runs", |cases, seed| runs::trial(cases, seed).into()),
];
/// If no number is given.
const CASES: u64 = 100_000;
const SEED: u64 = 7700;

fn main() -> ExitCode {
    let args: Vec<String> = env::args().skip(1).collect();
    let Some(((_, trial), cases, seed)) = wanted(&args) else {
        eprintln!("usage: trial check|lists|print|locate|build|explain|steps|runs [CASES] [SEED]");
        return ExitCode::from(2);
    };
    faults::report();
    let tallies = trial(cases, seed);
    let whole = cases >= CASES;
    let passed = tallies.iter().filter(|tally| passes(tally, whole)).count();
    if passed == tallies.len() {
        ExitCode::SUCCESS
    } else {
        ExitCode::FAILURE
    }
}

fn wanted(args: &[String]) -> Option<(Trial, u64, u64)> {
    let number = |at: usize, usual| args.get(at).map_or(Some(usual), |n| n.parse().ok());
    if args.len() > 3 {
        return None;
    }
    let trial = *TRIALS
        .iter()
        .find(|trial| args.first().is_some_and(|name| name == trial.0))?;
    Some((trial, number(1, CASES)?, number(2, SEED)?))
}

/// Prints a tally. A trial of the usual size or more has to meet all that can
/// occur.
fn passes(tally: &Tally, whole: bool) -> bool {
    tally.print();
    let lacks = tally.lacks();
    for lack in &lacks {
        println!("met too seldom: {lack}");
    }
    tally.differences() == 0 && (!whole || lacks.is_empty())
}
