//! Refused steps: every length, base and state around its limit with every
//! other, so that each order of tests is met.

use sim7700::generate::{Rng, RunCase, FORMER_CALLS, FORMER_STATE_BYTES};
use sim7700::numbers::{MAX_CALLS, MAX_IMAGE, MAX_RAM};
use sim7700::state::{set_call, set_depth, Registers, CALL_BYTES, HEAD_BYTES, STATE_BYTES};

const NOP: u8 = 0xEA;
const IMAGE_LENGTHS: [usize; 4] = [0, 1, MAX_IMAGE, MAX_IMAGE + 1];
const RAM_LENGTHS: [usize; 5] = [0, 1, 16, MAX_RAM, MAX_RAM + 1];
/// Open calls; those of before R-5 among them.
const DEPTHS: [usize; 7] = [0, 1, MAX_CALLS, MAX_CALLS + 1, FORMER_CALLS, 0x100, 0xFFFF];
/// Lengths that no state has.
const LENGTHS: [usize; 6] = [
    0,
    1,
    HEAD_BYTES,
    STATE_BYTES - 1,
    STATE_BYTES + 1,
    FORMER_STATE_BYTES,
];

/// Hands each case to `visit`.
pub fn swept(rng: &mut Rng, mut visit: impl FnMut(&RunCase)) {
    let states = states(rng);
    for length in IMAGE_LENGTHS {
        for base in bases(length as u32) {
            for ram_len in RAM_LENGTHS {
                for state in &states {
                    visit(&case(length, base, ram_len, state));
                }
            }
        }
    }
}

/// Around RAM's lengths, around the ends of banks, and past FFFFFF.
fn bases(length: u32) -> [u32; 14] {
    let (end, last) = (0x2_0000 - length, 0x100_0000 - length);
    [
        0,
        1,
        15,
        16,
        MAX_RAM as u32 - 1,
        MAX_RAM as u32,
        end,
        end + 1,
        0xFFFF,
        last,
        last + 1,
        0xFF_FFFF,
        0x100_0000,
        u32::MAX,
    ]
}

fn case(length: usize, base: u32, ram_len: usize, state: &[u8]) -> RunCase {
    let mut case = RunCase {
        image: vec![NOP; length],
        base,
        state: state.to_vec(),
        ram: vec![0x5A; ram_len],
        fill: (0x5A, 0),
        steps: 1,
    };
    // A step that is not refused is completed.
    if let Some(place) = case.state.get_mut(10..17) {
        let [low, high, bank, _] = base.to_le_bytes();
        (place[0], place[1], place[6]) = (low, high, bank);
    }
    case
}

/// A state with so many open calls of any address, of both kinds.
fn open(rng: &mut Rng, depth: usize) -> Vec<u8> {
    let mut state = vec![0; STATE_BYTES];
    let registers = Registers {
        a: rng.word(),
        s: rng.word(),
        ps: rng.word() & 0x7FF,
        ..Registers::default()
    };
    registers.write(&mut state);
    set_depth(&mut state, depth);
    for index in 0..MAX_CALLS {
        let kind = 1 + index as u8 % 2;
        set_call(&mut state, index, rng.word() as u32, kind);
    }
    state
}

/// Sound states, and those that break each of the state's rules.
fn states(rng: &mut Rng) -> Vec<Vec<u8>> {
    let mut states: Vec<Vec<u8>> = DEPTHS.map(|depth| open(rng, depth)).into();
    for length in LENGTHS {
        let mut state = open(rng, 2);
        state.resize(length, 0);
        states.push(state);
    }
    for bit in 0..8 {
        let mut state = open(rng, 0);
        state[15] |= 1 << bit;
        states.push(state);
    }
    // The first, the last open one, and the first that is not open.
    for (depth, index) in [(3, 0), (3, 2), (3, 3), (MAX_CALLS, MAX_CALLS - 1)] {
        for (address, kind) in [(0xFF_FFFF, 2), (0, 0), (0, 3), (0, 0x81), (0x100_0000, 1)] {
            let mut state = open(rng, depth);
            set_call(&mut state, index, address, kind);
            state[HEAD_BYTES + CALL_BYTES * index + 5..][..3].fill(0xEE);
            states.push(state);
        }
    }
    states
}
