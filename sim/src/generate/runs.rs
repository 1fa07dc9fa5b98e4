//! Runs: programs that go on for a while, random bytes, and refused ones.

use super::steps::filled;
use super::{gentle, step_case, Rng, RunCase, FORMER_CALLS, FORMER_STATE_BYTES};
use crate::numbers::{MAX_CALLS, MAX_IMAGE};
use crate::state::{set_call, set_depth, Registers, HEAD_BYTES, STATE_BYTES};

/// A run: of a gentle accepted program from its reset, of random bytes, of
/// calls without return, or a refused one.
pub fn run_case(rng: &mut Rng) -> RunCase {
    match rng.below(16) {
        0 => refused_run(rng),
        1 | 2 => random_run(rng),
        3 => deep_run(rng),
        _ => program_run(rng),
    }
}

fn step_count(rng: &mut Rng) -> u32 {
    match rng.below(10) {
        0 => 0,
        1 => 1,
        2..=7 => rng.below(100) as u32,
        _ => 100 + rng.below(900) as u32,
    }
}

fn program_run(rng: &mut Rng) -> RunCase {
    let program = gentle(rng);
    let mut image = program.case.image;
    let base = program.case.base;
    let mut r = Registers {
        a: rng.edge_word(),
        b: rng.edge_word(),
        x: rng.below(64) as u16,
        y: rng.below(64) as u16,
        s: program.ram as u16 - 1 - rng.below(8) as u16,
        dpr: rng.below(200) as u16,
        ps: rng.word() & 0x7C7,
        dt: 0,
        pc: program.case.reset,
    };
    // Now and then something is amiss: a byte, the direct page in the image
    // or at the end of RAM, the stack at its ends.
    match rng.below(16) {
        0 | 1 => image[rng.index(program.case.marks.len())] = rng.byte(),
        2 => r.dpr = base as u16,
        3 => r.dpr = program.ram as u16 - 128,
        4 => r.s = *rng.pick(&[0, 1, 2, 0xFFFF, base as u16]),
        5 => r.ps |= 0x08,
        _ => {}
    }
    let mut state = vec![0; STATE_BYTES];
    r.write(&mut state);
    let fill = (rng.byte(), *rng.pick(&[0, 1, 3]));
    RunCase {
        image,
        base,
        state,
        ram: filled(program.ram, fill),
        fill,
        steps: step_count(rng),
    }
}

/// A call to itself: until no more can be open, or to the end of RAM, which
/// may just hold what they push.
fn deep_run(rng: &mut Rng) -> RunCase {
    let ram_len = *rng.pick(&[
        MAX_CALLS,
        2 * MAX_CALLS,
        2 * MAX_CALLS + 1,
        3 * MAX_CALLS,
        512,
    ]);
    let base = *rng.pick(&[ram_len as u32, 0xC000, 0x12_FFF8]);
    let [low, middle, high, _] = base.to_le_bytes();
    let image = if rng.chance(1, 2) {
        vec![0x22, low, middle, high]
    } else {
        vec![0xEA, 0x20, low, middle]
    };
    let mut state = vec![0; STATE_BYTES];
    let r = Registers {
        pc: base,
        s: ram_len as u16 - 1,
        ..Registers::default()
    };
    r.write(&mut state);
    let fill = (rng.byte(), 1);
    RunCase {
        image,
        base,
        state,
        ram: filled(ram_len, fill),
        fill,
        // Some end before the last call that can be opened.
        steps: MAX_CALLS as u32 - 4 + rng.below(40) as u32,
    }
}

/// An image of random bytes.
fn random_run(rng: &mut Rng) -> RunCase {
    let mut case = step_case(rng);
    if !case.image.is_empty() && case.image.len() < 64 {
        let length = 16 + rng.index(32);
        // A base above 1000000 is refused, whatever the length.
        let room = 0x100_0000usize.checked_sub(case.base as usize);
        let length = length.min(room.unwrap_or(length));
        case.image = (0..length).map(|_| rng.byte()).collect();
    }
    case.steps = step_count(rng);
    case
}

/// Lengths that no state has.
const LENGTHS: [usize; 6] = [
    0,
    1,
    HEAD_BYTES,
    STATE_BYTES - 1,
    STATE_BYTES + 1,
    FORMER_STATE_BYTES,
];

/// A run with something at or past a limit: mostly refused.
pub fn refused_run(rng: &mut Rng) -> RunCase {
    let mut case = RunCase {
        image: vec![0xEA; 4],
        base: 0xC000,
        state: vec![0; STATE_BYTES],
        ram: Vec::new(),
        fill: (rng.byte(), 1),
        steps: 3,
    };
    let mut ram_len = 16;
    let r = Registers {
        pc: 0xC000,
        s: 15,
        ..Registers::default()
    };
    r.write(&mut case.state);
    for _ in 0..1 + rng.below(2) {
        match rng.below(9) {
            0 => case.image.clear(),
            1 => case.image = vec![0xEA; *rng.pick(&[1, MAX_IMAGE, MAX_IMAGE + 1])],
            2 => {
                case.base = *rng.pick(&[0xFFFC, 0xFFFD, 0xFF_FFFC, 0xFF_FFFD, 0x100_0000, u32::MAX])
            }
            3 => ram_len = *rng.pick(&[0, 1, 4096, 4097]),
            4 => (case.base, ram_len) = *rng.pick(&[(0, 1), (16, 16), (16, 17), (1, 1), (0, 0)]),
            5 => case.steps = *rng.pick(&[0, 1, 1_000_001, u32::MAX]),
            6 => case.state.resize(*rng.pick(&LENGTHS), 0),
            _ => refuse_state(rng, &mut case.state),
        }
    }
    case.ram = filled(ram_len, case.fill);
    case
}

/// PS bits, too many calls, or a bad one among them.
fn refuse_state(rng: &mut Rng, state: &mut [u8]) {
    if state.len() != STATE_BYTES {
        return;
    }
    match rng.below(4) {
        0 => state[15] = rng.byte(),
        1 => {
            let depths = [MAX_CALLS + 1, FORMER_CALLS, 256, 0xFFFF];
            set_depth(state, *rng.pick(&depths));
        }
        _ => {
            let depth = *rng.pick(&[1, 2, MAX_CALLS - 1, MAX_CALLS]);
            for index in 0..depth {
                set_call(
                    state,
                    index,
                    rng.next_u64() as u32 & 0xFF_FFFF,
                    1 + (index & 1) as u8,
                );
            }
            set_depth(state, depth);
            let bad = rng.index(depth);
            let address = *rng.pick(&[0, 0xFF_FFFF, 0x100_0000, u32::MAX]);
            set_call(state, bad, address, *rng.pick(&[0, 1, 2, 3, 0xFF]));
        }
    }
}
