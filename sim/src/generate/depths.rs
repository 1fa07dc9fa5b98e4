//! Calls and returns with each number of open calls, and states with more
//! than there can be (02, R-5).

use super::places::pulled;
use super::scene::{Scene, GAP};
use super::steps::{filled, state_of};
use super::{Rng, RunCase};
use crate::alu::{M, X};
use crate::numbers::{MAX_ADDRESS, MAX_CALLS};
use crate::state::{bytes_for, set_call, set_depth, Registers};

/// The open calls that a state had room for before R-5, and its bytes.
pub const FORMER_CALLS: usize = 64;
pub const FORMER_STATE_BYTES: usize = bytes_for(FORMER_CALLS);

/// JSR, JSR long, RTS and RTL with each number of open calls, the last of them
/// such that the return fits; then refused steps.
pub fn depth_steps(rng: &mut Rng) -> Vec<RunCase> {
    let mut cases = Vec::new();
    for (code, kind) in [(0x20, 1), (0x22, 2), (0x60, 1), (0x6B, 2)] {
        for depth in 0..=MAX_CALLS {
            let widths = *rng.pick(&[0, X, M, M | X]);
            let mut scene = Scene::new(rng, GAP, 0, code, widths);
            let fits = (pulled(&mut scene, kind), kind);
            scene.calls = any_calls(scene.rng, depth);
            if let Some(last) = scene.calls.last_mut() {
                *last = fits;
            }
            cases.push(scene.finish());
        }
    }
    cases.extend(refused_depths(rng, 1));
    cases
}

/// Routines that call themselves down to the last call that can be opened, and
/// past it, some of them open already; each run in two parts. Then refused
/// runs.
pub fn depth_runs(rng: &mut Rng) -> Vec<RunCase> {
    let mut cases = Vec::new();
    for base in [0xC000, 0x12_8000] {
        for image in [short(base), long(base), mixed(base)] {
            for open in [0, 1, MAX_CALLS - 2, MAX_CALLS] {
                let room = MAX_CALLS - open;
                for deep in room.max(2) - 1..=room + 2 {
                    cases.extend(nested(rng, base, &image, open, deep));
                }
            }
        }
    }
    cases.extend(refused_depths(rng, 5));
    cases
}

/// States with more open calls than there can be, up to what was sound before,
/// and states of the former length with as many open calls as they had room
/// for or fewer.
fn refused_depths(rng: &mut Rng, steps: u32) -> Vec<RunCase> {
    let mut cases = Vec::new();
    for depth in MAX_CALLS + 1..=FORMER_CALLS + 1 {
        let mut case = nop(rng, MAX_CALLS, steps);
        set_depth(&mut case.state, depth);
        cases.push(case);
    }
    for depth in [0, 1, MAX_CALLS - 1, MAX_CALLS, MAX_CALLS + 1, FORMER_CALLS] {
        let mut case = nop(rng, 0, steps);
        case.state.resize(FORMER_STATE_BYTES, 0);
        set_depth(&mut case.state, depth);
        for (index, (address, kind)) in any_calls(rng, depth).into_iter().enumerate() {
            set_call(&mut case.state, index, address, kind);
        }
        cases.push(case);
    }
    cases
}

fn any_calls(rng: &mut Rng, depth: usize) -> Vec<(u32, u8)> {
    let any = |_| (rng.next_u64() as u32 & MAX_ADDRESS, *rng.pick(&[1, 2]));
    (0..depth).map(any).collect()
}

/// A NOP with so many open calls.
fn nop(rng: &mut Rng, depth: usize, steps: u32) -> RunCase {
    let calls = any_calls(rng, depth);
    let mut case = Scene::new(rng, GAP, 0, 0xEA, 0).finish();
    let registers = Registers::read(&case.state);
    case.state = state_of(&registers, &calls);
    case.steps = steps;
    case
}

/// JSR to a routine, STP. The routine: DEX, BEQ to its end, JSR to itself, RTS.
fn short(base: u32) -> Vec<u8> {
    let [low, middle, ..] = (base + 4).to_le_bytes();
    let routine = [0xCA, 0xF0, 0x03, 0x20, low, middle, 0x60];
    [&[0x20, low, middle, 0xDB], &routine[..]].concat()
}

/// The same with JSR long and RTL.
fn long(base: u32) -> Vec<u8> {
    let [low, middle, bank, _] = (base + 5).to_le_bytes();
    let routine = [0xCA, 0xF0, 0x04, 0x22, low, middle, bank, 0x6B];
    [&[0x22, low, middle, bank, 0xDB], &routine[..]].concat()
}

/// Two routines that call each other, one of each kind.
fn mixed(base: u32) -> Vec<u8> {
    let [low, middle, ..] = (base + 4).to_le_bytes();
    let [far_low, far_middle, bank, _] = (base + 12).to_le_bytes();
    let near = [0xCA, 0xF0, 0x04, 0x22, far_low, far_middle, bank, 0x60];
    let far = [0xCA, 0xF0, 0x03, 0x20, low, middle, 0x6B];
    [&[0x20, low, middle, 0xDB], &near[..], &far].concat()
}

/// A run that opens `deep` calls, `open` others being open, if it can; and
/// what is left of it, from where it ends.
fn nested(rng: &mut Rng, base: u32, image: &[u8], open: usize, deep: usize) -> [RunCase; 2] {
    let registers = Registers {
        a: rng.edge_word(),
        x: deep as u16,
        s: 0x1FF,
        ps: rng.word() & 0x7F7,
        pc: base,
        ..Registers::default()
    };
    let fill = (rng.byte(), *rng.pick(&[0, 1, 3]));
    let first = RunCase {
        image: image.to_vec(),
        base,
        state: state_of(&registers, &any_calls(rng, open)),
        ram: filled(0x200, fill),
        fill,
        steps: rng.below(4 * deep as u64 + 2) as u32,
    };
    let mut rest = first.clone();
    (_, rest.state, rest.ram) = first.answer();
    rest.steps = 1_000;
    [first, rest]
}
