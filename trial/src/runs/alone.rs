//! Single runs.

use crate::machine::{carried, put_code, Instruction};
use crate::steps::noise::Noise;
use crate::steps::random;
use sim7700::codes::entry_of;
use sim7700::generate::{refused_by, run_case, stopped_by, Rng, RunCase};
use sim7700::numbers::MAX_STEPS;
use sim7700::state::{self, Registers, STATE_BYTES};
use sim7700::vectors::RUN_NUMBERS;

/// The most steps that can be asked for, with 400,000 calls of both kinds.
pub fn longest() -> RunCase {
    let mut case = RunCase {
        image: vec![
            0x20, 0x09, 0xC0, // JSR
            0x22, 0x0A, 0xC0, 0x00, // JSR long
            0x80, 0xF7, // BRA to the first
            0x60, // RTS
            0x6B, // RTL
        ],
        base: 0xC000,
        state: vec![0; STATE_BYTES],
        ram: vec![0; 16],
        fill: (0, 0),
        steps: MAX_STEPS,
    };
    let registers = Registers {
        s: 15,
        pc: case.base,
        ..Registers::default()
    };
    registers.write(&mut case.state);
    case
}

/// A run: of the generator, aimed at one of the numbers, or random.
pub fn drawn(rng: &mut Rng, noise: &Noise) -> RunCase {
    match rng.below(4) {
        0 => run_case(rng),
        1 => match *rng.pick(&RUN_NUMBERS) {
            stop @ 20.. => stopped_by(rng, stop),
            refusal => refused_by(rng, refusal),
        },
        _ => at_random(rng, noise),
    }
}

/// A random state and image, half the time carried codes one behind another.
fn at_random(rng: &mut Rng, noise: &Noise) -> RunCase {
    let mut case = random::drawn(rng, noise);
    if rng.chance(1, 2) && state::accept(&case.state).is_ok() {
        fill_with_code(rng, &mut case);
    }
    case.steps = match rng.below(500) {
        0 => *rng.pick(&[MAX_STEPS, MAX_STEPS - 1, MAX_STEPS + 1]),
        1..=100 => rng.below(3) as u32,
        _ => rng.below(200) as u32,
    };
    case
}

/// Puts carried codes into the image from PG and PC on; what lies between them
/// stays as operands.
fn fill_with_code(rng: &mut Rng, case: &mut RunCase) {
    let registers = Registers::read(&case.state);
    let Some(Instruction { mut at, .. }) = Instruction::of(&case.image, case.base, &registers)
    else {
        return;
    };
    while at < case.image.len() {
        let &(page, code) = rng.pick(carried());
        put_code(&mut case.image, at, (page, code));
        at += entry_of(page, code).length(registers.m(), registers.x_flag());
    }
}
