//! Images around the ends of banks (02, R-7): programs to be checked, run,
//! printed and located, and single steps.

use super::places::pulled;
use super::scene::{Layout, Scene};
use super::steps::{filled, state_of};
use super::{CheckCase, Rng, RunCase};
use crate::alu::{M, X};
use crate::marks::is_start;
use crate::numbers::{bank, MAX_ADDRESS};
use crate::state::Registers;

/// The first addresses of banks that images lie around.
pub const BANK_ENDS: [u32; 3] = [0x01_0000, 0x13_0000, 0xFF_0000];

/// So many of the programs around an end have JMP, JSR or RTS, which use a bank;
/// they come first.
pub const BANK_JUMPS: usize = 12;

/// Stand for the numbers of the two banks in a program's bytes.
const LOWER: u16 = 0x100;
const UPPER: u16 = 0x101;

/// The bytes before a bank's end, those from it on, the marks of all, and the
/// offset of the reset.
type Around = (&'static [u16], &'static [u16], &'static [u8], usize);

/// Accepted programs. An absolute target in the upper bank is small, one in the
/// lower bank is beside FFFF.
#[rustfmt::skip]
const PROGRAMS: [Around; 18] = [
    // JMP that ends with the bank, across its end in both ways, behind it, and
    // a byte before its end.
    (&[0x4C, 0x01, 0x00], &[0xEA, 0xDB], &[1, 0, 0, 0, 1], 0),
    (&[0x4C, 0x02], &[0x00, 0xEA, 0xDB], &[1, 0, 0, 0, 1], 0),
    (&[0x4C], &[0x03, 0x00, 0xEA, 0xDB], &[1, 0, 0, 0, 1], 0),
    (&[0xEA], &[0x4C, 0x04, 0x00, 0xEA, 0xDB], &[1, 1, 0, 0, 0, 1], 0),
    (&[0x4C, 0xFF, 0xFF, 0xDB], &[0xEA], &[1, 0, 0, 1, 0], 0),
    // JSR that ends with the bank, and across its end in both ways.
    (&[0x20, 0x02, 0x00], &[0xDB, 0xEA, 0x60], &[1, 0, 0, 1, 0, 9], 0),
    (&[0x20, 0x03], &[0x00, 0xDB, 0xEA, 0x60], &[1, 0, 0, 1, 0, 9], 0),
    (&[0x20], &[0x04, 0x00, 0xDB, 0xEA, 0x60], &[1, 0, 0, 1, 0, 9], 0),
    // RTS in the first byte of a bank.
    (&[0xEA], &[0x60, 0x20, 0x00, 0x00, 0xDB], &[0, 9, 1, 0, 0, 1], 2),
    // RTS in the last byte: astray when it was called from that bank, and not
    // when the address after the call lies in the next one.
    (&[0x20, 0xFF, 0xFF, 0xDB, 0xEA, 0x60], &[0xEA], &[1, 0, 0, 1, 0, 9, 0], 0),
    (&[0x60], &[0x20, 0x04, 0x00, 0xDB, 0x5C, 0xFF, 0xFF, LOWER], &[9, 1, 0, 0, 1, 9, 0, 0, 0], 1),
    // A routine that runs over the bank's end before its RTS: astray.
    (&[0x20, 0xFE, 0xFF, 0xDB, 0xEA, 0xEA], &[0x60], &[1, 0, 0, 1, 9, 9, 9], 0),
    // JSR long across the end and back, and RTL as the bank's last byte.
    (&[0x22, 0x03, 0x00], &[UPPER, 0xDB, 0xEA, 0x6B], &[1, 0, 0, 0, 1, 0, 0x11], 0),
    (&[0x6B], &[0x22, 0xFF, 0xFF, LOWER, 0xDB], &[0x11, 1, 0, 0, 0, 1], 1),
    // Branches over the end, forth and back.
    (&[0x80, 0x01], &[0xEA, 0xDB], &[1, 0, 0, 1], 0),
    (&[0xDB, 0xEA], &[0x82, 0xFB, 0xFF], &[1, 0, 1, 0, 0], 2),
    (&[0xEA, 0xF0], &[0x01, 0xEA, 0xDB], &[1, 1, 0, 1, 1], 0),
    // An instruction of six bytes across the end, then widths that go on there.
    (&[0x3C, 0x00, 0x00, 0x00], &[0x00, 0x00, 0xF8, 0xA9, 0x00, 0xDB], &[1, 0, 0, 0, 0, 0, 1, 3, 0, 3], 0),
];

/// A program around the end before this address.
fn around(end: u32, (before, behind, marks, reset): Around) -> CheckCase {
    let byte = |&code: &u16| match code {
        LOWER => ((end - 1) >> 16) as u8,
        UPPER => (end >> 16) as u8,
        _ => code as u8,
    };
    let base = end - before.len() as u32;
    CheckCase {
        image: before.iter().chain(behind).map(byte).collect(),
        marks: marks.to_vec(),
        base,
        reset: base + reset as u32,
    }
}

/// Accepted programs around ends of banks.
pub fn bank_programs() -> Vec<CheckCase> {
    let around_each = |end| PROGRAMS.map(|program| around(end, program));
    BANK_ENDS.into_iter().flat_map(around_each).collect()
}

/// The accepted programs, each of them a byte lower and higher, with each of its
/// starts taken away, and with resets in other banks; and what can't be the last
/// instruction up to FFFFFF, beside what can.
pub fn bank_checks() -> Vec<CheckCase> {
    let mut cases = bank_programs();
    for case in bank_programs() {
        for by in [-1, 1] {
            let mut moved = case.clone();
            moved.base = moved.base.wrapping_add_signed(by);
            moved.reset = moved.reset.wrapping_add_signed(by);
            cases.push(moved);
        }
        for at in (0..case.marks.len()).filter(|&at| is_start(case.marks[at])) {
            let mut fewer = case.clone();
            fewer.marks[at] = 0;
            cases.push(fewer);
        }
        for reset in other_resets(&case) {
            let mut other = case.clone();
            other.reset = reset;
            cases.push(other);
        }
    }
    cases.extend(LAST.map(up_to_the_last));
    cases
}

fn other_resets(case: &CheckCase) -> [u32; 5] {
    let (reset, end) = (case.reset, case.base + case.image.len() as u32);
    let other_bank = reset ^ 0x1_0000;
    [
        other_bank,
        reset & 0xFFFF,
        reset | 0x100_0000,
        end,
        case.base - 1,
    ]
}

/// Images up to FFFFFF by their last bytes, a NOP before them. Those that go on
/// from there, or into bank 0, are refused.
const LAST: [&[u8]; 8] = [
    &[0xDB],
    &[0x80, 0xFD],
    &[0xEA],
    &[0x80, 0x00],
    &[0x4C, 0x00, 0x00],
    &[0x4C, 0xFC, 0xFF],
    &[0x20, 0x00, 0x00],
    &[0x22, 0xFB, 0xFF, 0xFF],
];

fn up_to_the_last(bytes: &[u8]) -> CheckCase {
    let image = [&[0xEA], bytes].concat();
    let base = MAX_ADDRESS + 1 - image.len() as u32;
    let mut marks = vec![0; image.len()];
    marks[..2].fill(1);
    CheckCase {
        image,
        marks,
        base,
        reset: base,
    }
}

/// Runs of the accepted programs from their resets, asked for all steps and for
/// each number of them.
pub fn bank_runs(rng: &mut Rng) -> Vec<RunCase> {
    let mut cases = Vec::new();
    for case in bank_programs() {
        let whole = run_of(rng, &case);
        let done = whole.answer().0 >> 16 & 0xFF_FFFF;
        for steps in (0..=done as u32).chain([whole.steps]) {
            cases.push(RunCase {
                steps,
                ..whole.clone()
            });
        }
    }
    cases
}

fn run_of(rng: &mut Rng, case: &CheckCase) -> RunCase {
    let registers = Registers {
        a: rng.edge_word(),
        s: 0x1FF,
        pc: case.reset,
        ..Registers::default()
    };
    let fill = (rng.byte(), *rng.pick(&[0, 1, 3]));
    RunCase {
        image: case.image.clone(),
        base: case.base,
        state: state_of(&registers, &[]),
        ram: filled(0x200, fill),
        fill,
        steps: 20,
    }
}

/// The codes of which steps stand around ends of banks: jumps, calls, returns,
/// branches, pushes of PG and PC, and others of one to six bytes.
const CODES: [(usize, u8); 15] = [
    (0, 0x4C),
    (0, 0x5C),
    (0, 0x20),
    (0, 0x22),
    (0, 0x60),
    (0, 0x6B),
    (0, 0x80),
    (0, 0x82),
    (0, 0xF0),
    (0, 0x4B),
    (0, 0x62),
    (0, 0xEA),
    (0, 0xA9),
    (1, 0x69),
    (0, 0x3C),
];

/// Each of these codes ending a byte before the end, with it, behind each of
/// its bytes, and right behind it; and up to FFFFFF, where there is no behind.
pub fn bank_steps(rng: &mut Rng) -> Vec<RunCase> {
    let mut cases = Vec::new();
    for end in BANK_ENDS.into_iter().chain([MAX_ADDRESS + 1]) {
        let behind = if end > MAX_ADDRESS { 0 } else { 8 };
        let layout = Layout::new(0x200, end - 8, 8 + behind);
        for code in CODES {
            for first in 0..=8 {
                cases.extend(one_step(rng, layout, code, first));
            }
        }
    }
    cases
}

/// A code at a place in the image: with the open call that a return finds if it
/// uses the bank of the address just after it, and with that of its own bank.
fn one_step(rng: &mut Rng, layout: Layout, code: (usize, u8), first: usize) -> Vec<RunCase> {
    let widths = *rng.pick(&[0, X, M, M | X]);
    let length = Scene::new(rng, layout, code.0, code.1, widths).length();
    let whole = first + length <= layout.image_len;
    if !whole || first + length + 1 < 8 {
        return Vec::new();
    }
    let kind = match code.1 {
        0x60 => 1,
        0x6B => 2,
        _ => return vec![placed(rng, layout, code, widths, first).finish()],
    };
    let returning = |in_next: bool| {
        let mut scene = placed(rng, layout, code, widths, first);
        let address = pulled(&mut scene, kind);
        let own = bank(scene.instruction()) | address & 0xFFFF;
        scene.calls = vec![(if in_next { address } else { own }, kind)];
        scene.finish()
    };
    [true, false].map(returning).into()
}

fn placed<'a>(
    rng: &'a mut Rng,
    layout: Layout,
    (page, code): (usize, u8),
    widths: u16,
    first: usize,
) -> Scene<'a> {
    let mut scene = Scene::new(rng, layout, page, code, widths);
    scene.at = Some(first);
    if matches!(code, 0x4C | 0x20) {
        scene.operand = vec![scene.rng.byte() & 3, 0x00];
    }
    scene
}
