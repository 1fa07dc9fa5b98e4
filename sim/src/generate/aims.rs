//! Runs and steps aimed at one number, and runs of one program in a row.

use super::lists::broken_base;
use super::steps::{filled, state_of};
use super::{crossing_base, gentle, Rng, RunCase, FORMER_CALLS, FORMER_STATE_BYTES};
use crate::codes::{entry_of, Word};
use crate::numbers::*;
use crate::state::{set_call, set_depth, Registers, CALL_BYTES, HEAD_BYTES, STATE_BYTES};

/// The number of a run's answer: its refusal, else its end.
fn number_of(answer: u64) -> u8 {
    match answer as u8 {
        0 => (answer >> 8) as u8,
        refusal => refusal,
    }
}

/// A run that is refused with this number: 1, 2, 11, 12 or 13. Half of them
/// break later rules too.
pub fn refused_by(rng: &mut Rng, number: u8) -> RunCase {
    let order = [LENGTH, BASE, RAM, STATE, STEPS];
    loop {
        let mut case = sound(rng);
        let later = rng.chance(1, 2);
        for rule in order {
            if rule == number || later && rule > number && rng.chance(1, 2) {
                break_rule(rng, &mut case, rule);
            }
        }
        if case.answer().0 == number as u64 {
            return case;
        }
    }
}

/// A run that is not refused.
fn sound(rng: &mut Rng) -> RunCase {
    let length = 1 + rng.index(8);
    let ram_len = *rng.pick(&[1, 2, 16, 512, 4096]);
    let base = match rng.below(5) {
        0 => ram_len as u32,
        1 => 0xFF_0000 + (0x1_0000 - length as u32),
        2 => 0x1_0000 - length as u32,
        3 if length > 1 => crossing_base(rng, length),
        _ => 0xC000,
    };
    let fill = (rng.byte(), *rng.pick(&[0, 1, 3]));
    let r = Registers {
        a: rng.edge_word(),
        x: rng.edge_word(),
        s: ram_len as u16 - 1,
        ps: rng.word() & 0x7FF,
        pc: base,
        ..Registers::default()
    };
    let calls: Vec<(u32, u8)> = (0..rng.below(3))
        .map(|_| (rng.next_u64() as u32 & MAX_ADDRESS, *rng.pick(&[1, 2])))
        .collect();
    RunCase {
        image: (0..length)
            .map(|_| *rng.pick(&[0xEA, 0xE8, 0x18]))
            .collect(),
        base,
        state: state_of(&r, &calls),
        ram: filled(ram_len, fill),
        fill,
        steps: 1 + rng.below(5) as u32,
    }
}

fn break_rule(rng: &mut Rng, case: &mut RunCase, rule: u8) {
    match rule {
        LENGTH => case.image.clear(),
        BASE => {
            let length = case.image.len().max(2);
            case.image.resize(length, 0xEA);
            case.base = broken_base(rng, length);
        }
        RAM => {
            let length = match rng.below(4) {
                0 => 0,
                1 => *rng.pick(&[4097, 4098, 8192, 65535]),
                _ if case.base < MAX_RAM as u32 => case.base as usize + 1,
                _ => {
                    let sizes = [0, 1, 2, 15, 255, 4095];
                    case.base = case.base.min(*rng.pick(&sizes));
                    case.base as usize + 1
                }
            };
            case.ram = filled(length, case.fill);
        }
        STATE => break_state(rng, &mut case.state),
        _ => {
            case.steps = *rng.pick(&[
                1_000_001,
                1_000_002,
                0x10F_4240,
                0x8000_0000,
                0x100_0000,
                u32::MAX,
            ])
        }
    }
}

/// Lengths that no state has.
const LENGTHS: [usize; 9] = [
    0,
    1,
    HEAD_BYTES - 1,
    HEAD_BYTES,
    HEAD_BYTES + CALL_BYTES,
    STATE_BYTES - 1,
    STATE_BYTES + 1,
    STATE_BYTES + CALL_BYTES,
    FORMER_STATE_BYTES,
];

/// More open calls than there can be; of some the low byte is a sound number.
const DEPTHS: [usize; 8] = [
    MAX_CALLS + 1,
    MAX_CALLS + 2,
    FORMER_CALLS,
    FORMER_CALLS + 1,
    256,
    256 + MAX_CALLS,
    0x8000,
    0xFFFF,
];

/// Opens sound calls.
fn open_calls(rng: &mut Rng, state: &mut [u8], depth: usize) {
    for index in 0..depth {
        set_call(state, index, rng.byte() as u32, 1 + index as u8 % 2);
    }
    set_depth(state, depth);
}

/// Another length, a bit of PS, too many open calls, a bad one among them, or
/// a state that was sound before R-5.
fn break_state(rng: &mut Rng, state: &mut Vec<u8>) {
    match rng.below(7) {
        0 => state.resize(*rng.pick(&LENGTHS), 0),
        1 => state[15] |= 8 << rng.below(5),
        2 => set_depth(state, *rng.pick(&DEPTHS)),
        3 => {
            state.resize(FORMER_STATE_BYTES, 0);
            let depths = [0, 2, MAX_CALLS, MAX_CALLS + 1, FORMER_CALLS];
            let depth = *rng.pick(&depths);
            open_calls(rng, state, depth);
        }
        _ => {
            let depth = *rng.pick(&[1, 1, 2, 3, 8, MAX_CALLS]);
            open_calls(rng, state, depth);
            let bad = *rng.pick(&[0, depth - 1, depth / 2]);
            let fine = (rng.next_u64() as u32 & MAX_ADDRESS, *rng.pick(&[1, 2]));
            let (address, kind) = match rng.below(2) {
                0 => (fine.0, *rng.pick(&[0, 3, 4, 0x81, 0xFF])),
                _ => (*rng.pick(&[0x100_0000, 0x8000_0000, u32::MAX]), fine.1),
            };
            set_call(state, bad, address, kind);
        }
    }
}

/// A run that ends with this stop, mostly after some steps and calls.
pub fn stopped_by(rng: &mut Rng, stop: u8) -> RunCase {
    loop {
        let mut case = aimed_run(rng, stop);
        if number_of(case.answer().0) == stop {
            // It stops: more steps asked change nothing.
            case.steps = *rng.pick(&[case.steps, 5_000, MAX_STEPS]);
            return case;
        }
    }
}

/// Instructions that go on wherever they stand, at any widths.
const ON: [&[u8]; 16] = [
    &[0xEA],
    &[0x18],
    &[0x38],
    &[0x58],
    &[0xB8],
    &[0xE8],
    &[0xC8],
    &[0xCA],
    &[0x88],
    &[0x1A],
    &[0x42, 0x3A],
    &[0x80, 0x00],
    &[0x82, 0x00, 0x00],
    &[0x89, 0x28],
    &[0xE2, 0x20],
    &[0xC2, 0x30],
];

/// Subroutines at the image's front: RTS, RTL, and one that pushes first.
const FRONT: [u8; 4] = [0x60, 0x6B, 0x48, 0x60];

struct Code {
    base: u32,
    image: Vec<u8>,
}

impl Code {
    fn here(&self) -> u32 {
        self.base + self.image.len() as u32
    }

    fn put(&mut self, bytes: &[u8]) {
        self.image.extend_from_slice(bytes);
    }

    /// A code with the low two or three bytes of an address.
    fn to(&mut self, code: u8, address: u32, bytes: usize) {
        self.image.push(code);
        self.put(&address.to_le_bytes()[..bytes]);
    }

    fn call(&mut self, long: bool, target: u32) {
        if long {
            self.to(0x22, target, 3);
        } else {
            self.to(0x20, target, 2);
        }
    }
}

/// The image's whole length, where it is placed at a bank's end.
const WHOLE: usize = 48;

fn aimed_run(rng: &mut Rng, stop: u8) -> RunCase {
    let ram_len = *rng.pick(&[64, 256, 512]);
    let whole = rng.chance(1, 3);
    let base = match rng.below(4) {
        0 if whole => crossing_base(rng, WHOLE),
        _ if whole => *rng.pick(&[0x1_0000, 0x100_0000]) - WHOLE as u32,
        0 | 1 => ram_len as u32,
        2 => 0xC000,
        _ => 0x12_8000,
    };
    let mut r = Registers {
        a: rng.edge_word(),
        b: rng.edge_word(),
        x: rng.below(16) as u16,
        y: rng.below(16) as u16,
        s: *rng.pick(&[12, 20, ram_len as u16 - 8, ram_len as u16 - 4]),
        ps: rng.word() & 0x7F7,
        dpr: rng.below(16) as u16,
        dt: (base >> 16) as u8,
        pc: base + FRONT.len() as u32,
    };
    let mut code = Code {
        base,
        image: FRONT.to_vec(),
    };
    for _ in 0..rng.below(7) {
        if rng.chance(1, 4) {
            let long = rng.chance(1, 2);
            code.call(long, base + long as u32);
        } else {
            let &bytes = rng.pick(&ON);
            code.put(bytes);
        }
    }
    let mut calls = Vec::new();
    aim(rng, stop, &mut code, &mut r, &mut calls, ram_len as u32);
    if stop != OUTSIDE || whole {
        let length = if whole {
            WHOLE
        } else {
            code.image.len() + rng.index(3)
        };
        code.image
            .resize_with(length.max(code.image.len()), || rng.byte());
        code.image.truncate(length);
    }
    let fill = (rng.byte(), *rng.pick(&[0, 1, 3]));
    RunCase {
        image: code.image,
        base,
        state: state_of(&r, &calls),
        ram: filled(ram_len, fill),
        fill,
        steps: 500,
    }
}

/// Puts the instructions that shall stop.
fn aim(
    rng: &mut Rng,
    stop: u8,
    code: &mut Code,
    r: &mut Registers,
    calls: &mut Vec<(u32, u8)>,
    ram_len: u32,
) {
    let (base, here) = (code.base, code.here());
    match stop {
        OUTSIDE => match rng.below(7) {
            0 => {}
            1 => code.put(&[*rng.pick(&[0x42, 0x89])]),
            2 => code.put(&[*rng.pick(&[0xAD, 0x8F, 0x2C, 0xE2])]),
            3 => code.to(0x4C, base.wrapping_sub(1 + rng.below(9) as u32), 2),
            4 => code.to(0x5C, rng.next_u64() as u32, 3),
            5 => code.put(&[0x80, *rng.pick(&[0x7F, 0x80])]),
            _ => code.call(rng.chance(1, 2), base),
        },
        UNCARRIED => {
            let page = rng.index(3);
            let mut byte = rng.byte();
            while entry_of(page, byte).carried || page == 0 && matches!(byte, 0x42 | 0x89) {
                byte = byte.wrapping_add(1);
            }
            code.put([&[][..], &[0x42], &[0x89]][page]);
            code.put(&[byte]);
        }
        HALT => code.put(&[*rng.pick(&[0xDB, 0xCB])]),
        UNMAPPED | IMAGE_STORE => {
            let end = base + 24;
            let goals = [
                ram_len - 1,
                ram_len,
                base - 1,
                base,
                base + 1,
                end,
                0xFF_FFFF,
            ];
            let goal = *rng.pick(&goals);
            match rng.below(4) {
                0 => code.to(*rng.pick(&[0x8F, 0xAF, 0x6F]), goal, 3),
                1 => code.to(*rng.pick(&[0x8D, 0x8E, 0xEE, 0xCE, 0xAD]), goal, 2),
                2 => {
                    r.dpr = goal as u16;
                    code.put(&[*rng.pick(&[0x85, 0x86, 0xE6, 0x06, 0xA5]), 0]);
                }
                // Pushes until S is past 0000.
                _ => code.put(&[*rng.pick(&[0x48, 0x8B, 0x0B, 0xDA, 0x08]), 0x80, 0xFD]),
            }
        }
        ASTRAY => {
            let long = rng.chance(1, 2);
            match rng.below(4) {
                0 => code.put(&[*rng.pick(&[0x60, 0x6B])]),
                1 => code.call(long, base + !long as u32),
                2 => code.call(long, base + 2),
                _ => {
                    calls.push((rng.next_u64() as u32 & MAX_ADDRESS, *rng.pick(&[1, 2])));
                    code.put(&[*rng.pick(&[0x60, 0x6B])]);
                }
            }
        }
        DEEP => {
            let most = MAX_CALLS as u32;
            let open = *rng.pick(&[0, most - 14, most - 3, most - 2, most - 1, most]);
            calls.extend((0..open).map(|k| (k << 8, 1 + k as u8 % 2)));
            r.s = *rng.pick(&[ram_len as u16 - 1, 40, 3]);
            code.call(rng.chance(1, 2), here);
        }
        _ => {
            if rng.chance(2, 3) {
                code.put(&[0xE2, 0x08]);
            } else {
                r.ps |= 0x08;
            }
            let all = (0..2).flat_map(|page| (0..=255).map(move |code| (page, code)));
            let codes: Vec<(usize, u8)> = all
                .filter(|&(p, c)| matches!(entry_of(p, c).word, Word::ADC | Word::SBC))
                .collect();
            let (page, byte) = *rng.pick(&codes);
            code.put([&[][..], &[0x42]][page]);
            code.put(&[byte]);
            for _ in 0..3 {
                code.put(&[rng.edge_byte()]);
            }
        }
    }
}

/// Runs of one accepted program with one RAM, each from where the one before
/// ended, and refused ones between, which leave all as it was. The last one
/// begins where the program has come to its stop, or near it.
pub fn continued_runs(rng: &mut Rng) -> Vec<RunCase> {
    let (mut next, total) = loop {
        let case = from_reset(rng);
        let (answer, ..) = case.answer();
        let (total, calls) = (answer >> 16 & 0xFF_FFFF, answer >> 40);
        // Long enough to be parted, and mostly with calls.
        if case.image.len() < 160 && total >= 12 && (calls > 0 || rng.chance(1, 4)) {
            break (case, total);
        }
    };
    let most = next.steps;
    let count = 4 + rng.below(3);
    let mut runs = Vec::new();
    for turn in 0..=count {
        if rng.chance(1, 3) {
            runs.push(refused_between(rng, &next));
        }
        next.steps = match rng.below(6) {
            _ if turn == count => most,
            0 => 0,
            1 => 1,
            _ => 1 + rng.below(2 * total / count) as u32,
        };
        runs.push(next.clone());
        (_, next.state, next.ram) = next.answer();
    }
    runs
}

/// A gentle program at its reset, asked for many steps.
fn from_reset(rng: &mut Rng) -> RunCase {
    let program = gentle(rng);
    let base = program.case.base;
    let r = Registers {
        a: rng.edge_word(),
        b: rng.edge_word(),
        x: rng.below(64) as u16,
        y: rng.below(64) as u16,
        s: program.ram as u16 - 1,
        dpr: rng.below(200) as u16,
        ps: rng.word() & 0x7C7,
        dt: 0,
        pc: program.case.reset,
    };
    let fill = (rng.byte(), *rng.pick(&[0, 1, 3]));
    RunCase {
        image: program.case.image,
        base,
        state: state_of(&r, &[]),
        ram: filled(program.ram, fill),
        fill,
        steps: 1_000,
    }
}

/// The same run, refused: for its steps or for its state.
fn refused_between(rng: &mut Rng, next: &RunCase) -> RunCase {
    let mut case = next.clone();
    case.steps = 5;
    if rng.chance(1, 2) {
        break_rule(rng, &mut case, STEPS);
    } else {
        match rng.below(3) {
            0 => case.state.resize(STATE_BYTES - 1, 0),
            1 => case.state[15] |= 0x08,
            _ => set_depth(&mut case.state, MAX_CALLS + 1),
        }
    }
    case
}
