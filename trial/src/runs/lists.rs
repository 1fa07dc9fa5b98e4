//! Lists of runs over accepted programs, refused runs between.

use crate::check::cases::mixed_code;
use crate::steps::calls::litter;
use crate::steps::noise::Noise;
use sim7700::alu::{self, D};
use sim7700::generate::{accepted, gentle, CheckCase, Rng, RunCase, FORMER_STATE_BYTES};
use sim7700::marks::{self, is_start};
use sim7700::numbers::{MAX_CALLS, MAX_IMAGE, MAX_RAM, MAX_STEPS};
use sim7700::state::{set_call, set_depth, Registers, STATE_BYTES};

/// An accepted program, what its first run is given, and the runs.
pub struct List {
    pub program: CheckCase,
    pub first: RunCase,
    pub turns: Vec<Turn>,
}

/// A run from where the one before ended.
#[derive(Clone, Copy)]
pub enum Turn {
    /// Asked for so many steps.
    Asked(u32),
    /// Lent RAM of another length.
    Ram(usize),
    /// Given a state that can't be.
    State(Flaw),
}

#[derive(Clone, Copy)]
pub enum Flaw {
    Length(usize),
    Status(u8),
    Depth(usize),
    /// The address and kind of the only open call.
    Call(u32, u8),
}

impl List {
    pub fn drawn(rng: &mut Rng, noise: &Noise) -> List {
        let (program, ram_len) = program(rng);
        let first = begun(rng, noise, &program, ram_len);
        let count = 3 + rng.below(5);
        let turns = (0..count).map(|_| Turn::drawn(rng, ram_len)).collect();
        List {
            program,
            first,
            turns,
        }
    }
}

/// An accepted program, and a length of RAM that fits below it.
fn program(rng: &mut Rng) -> (CheckCase, usize) {
    if rng.chance(3, 4) {
        let program = gentle(rng);
        return (program.case, program.ram);
    }
    loop {
        let case = match rng.below(500) {
            0 => {
                let length = 1_000 + rng.index(MAX_IMAGE - 1_000) + 1;
                mixed_code(rng, length)
            }
            _ => accepted(rng),
        };
        if case.base > 0 {
            let ram_len = *rng.pick(&[16, 256, 512, 512, 1024, MAX_RAM]);
            let below = ram_len.min(case.base as usize);
            return (case, below);
        }
    }
}

/// A state at a marked start with the marked widths and no open call; all else
/// is drawn.
fn begun(rng: &mut Rng, noise: &Noise, program: &CheckCase, ram_len: usize) -> RunCase {
    let starts: Vec<usize> = (0..program.marks.len())
        .filter(|&at| is_start(program.marks[at]))
        .collect();
    let at = match rng.below(3) {
        0 => (program.reset - program.base) as usize,
        _ => *rng.pick(&starts),
    };
    let mut state = vec![0; STATE_BYTES];
    let mut registers = registers(rng, program.base, ram_len);
    registers.pc = program.base + at as u32;
    for (bit, flag) in [(marks::M, alu::M), (marks::X, alu::X)] {
        registers.ps = alu::put(registers.ps, flag, program.marks[at] & bit != 0);
    }
    registers.write(&mut state);
    litter(rng, noise, &mut state);
    RunCase {
        image: program.image.clone(),
        base: program.base,
        state,
        ram: noise.mixed(rng, ram_len).to_vec(),
        fill: (0, 0),
        steps: 0,
    }
}

/// Registers with which a program mostly stays in its RAM, and has room for a
/// return at once; one time out of eight any.
fn registers(rng: &mut Rng, base: u32, ram_len: usize) -> Registers {
    let near = |rng: &mut Rng| rng.below(64) as u16;
    let tame = Registers {
        a: rng.edge_word(),
        b: rng.edge_word(),
        x: near(rng),
        y: near(rng),
        s: (ram_len as u16 - 1).saturating_sub(rng.below(8) as u16),
        dpr: near(rng),
        ps: rng.word() & 0x7FF & !D,
        dt: 0,
        pc: 0,
    };
    if rng.chance(7, 8) {
        return tame;
    }
    Registers {
        x: rng.edge_word(),
        y: rng.edge_word(),
        s: rng.edge_word(),
        dpr: *rng.pick(&[0, base as u16, ram_len as u16, 0xFFFF]),
        ps: rng.word() & 0x7FF,
        dt: rng.edge_byte(),
        ..tame
    }
}

impl Turn {
    fn drawn(rng: &mut Rng, ram_len: usize) -> Turn {
        match rng.below(12) {
            0 => Turn::Asked(*rng.pick(&[MAX_STEPS + 1, 0x100_0001, u32::MAX])),
            1 => Turn::Ram(*rng.pick(&[0, MAX_RAM + 1, 2 * MAX_RAM])),
            2 => Turn::State(Flaw::drawn(rng)),
            3 => Turn::Asked(0),
            4 | 5 => Turn::Asked(1),
            6..=9 => Turn::Asked(rng.below(30) as u32),
            _ => Turn::Asked(rng.index(ram_len) as u32),
        }
    }

    /// The run from the state and RAM that the one before has left.
    pub fn case(self, before: &RunCase) -> RunCase {
        let mut case = before.clone();
        match self {
            Turn::Asked(steps) => case.steps = steps,
            Turn::Ram(length) => case.ram.resize(length, 0),
            Turn::State(flaw) => flaw.put(&mut case.state),
        }
        case
    }
}

impl Flaw {
    fn drawn(rng: &mut Rng) -> Flaw {
        match rng.below(5) {
            0 => {
                let lengths = [0, STATE_BYTES - 1, STATE_BYTES + 1, FORMER_STATE_BYTES];
                Flaw::Length(*rng.pick(&lengths))
            }
            1 => Flaw::Status(8 << rng.below(5)),
            2 => Flaw::Depth(*rng.pick(&[MAX_CALLS + 1, 0x100, 0xFFFF])),
            3 => Flaw::Call(rng.word() as u32, *rng.pick(&[0, 3, 0xFF])),
            _ => Flaw::Call(0x100_0000 << rng.below(8), 1),
        }
    }

    fn put(self, state: &mut Vec<u8>) {
        match self {
            Flaw::Length(length) => state.resize(length, 0),
            Flaw::Status(bits) => state[15] |= bits,
            Flaw::Depth(depth) => set_depth(state, depth),
            Flaw::Call(address, kind) => {
                set_depth(state, 1);
                set_call(state, 0, address, kind);
            }
        }
    }
}
