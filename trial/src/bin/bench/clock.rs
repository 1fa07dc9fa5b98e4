//! Times of two functions on one input.

use std::hint::black_box;
use std::time::Instant;

/// Batches of each side; the best counts.
const BATCHES: usize = 50;

/// What a row of the table is about.
pub struct Input<'a> {
    pub name: &'a str,
    pub unit: &'a str,
    /// Units of the input, which the times are divided by.
    pub units: usize,
    /// Calls in a batch.
    pub calls: usize,
}

/// Times and prints one input; the library's best time of a call in ns.
pub fn row(
    input: Input,
    mut library: impl FnMut() -> u64,
    mut simulator: impl FnMut() -> u64,
) -> f64 {
    assert_eq!(library(), simulator(), "the answers differ");
    let (proved, simulated) = best(input.calls, &mut library, &mut simulator);
    let Input {
        name, unit, units, ..
    } = input;
    println!(
        "{name:<17}{units:>7} {unit:<6}    {:>9.2}  {:>9.2}  {:>5.2}",
        proved / units as f64,
        simulated / units as f64,
        proved / simulated
    );
    proved
}

/// The best times of a call of library and simulator in ns. Both in turn, so
/// that what else the machine does meets them alike.
fn best(
    calls: usize,
    library: &mut dyn FnMut() -> u64,
    simulator: &mut dyn FnMut() -> u64,
) -> (f64, f64) {
    let mut best = (f64::MAX, f64::MAX);
    for _ in 0..BATCHES {
        best.0 = best.0.min(batch(calls, library));
        best.1 = best.1.min(batch(calls, simulator));
    }
    best
}

/// The time of one call, in ns.
#[inline(never)]
fn batch(calls: usize, call: &mut dyn FnMut() -> u64) -> f64 {
    let begun = Instant::now();
    for _ in 0..calls {
        black_box(call());
    }
    begun.elapsed().as_nanos() as f64 / calls as f64
}
