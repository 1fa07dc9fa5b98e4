//! Images with lists of their routines, such that marks can be worked out and
//! such that they can't.

use super::checks::good_mark;
use super::digits::routines_in;
use super::lists::{broken_base, damage_byte, overlong, reorder, start_line, starts_of};
use super::{accepted, crossing_base, hostile_check, sound_base, CheckCase, Rng};
use crate::build_marks;
use crate::marks::{self, KIND_RTL, KIND_RTS, RESET_MARK, START};
use crate::numbers::*;

/// Arguments of the building; the marks are those before the call.
#[derive(Clone, PartialEq, Eq, Debug)]
pub struct BuildCase {
    pub image: Vec<u8>,
    pub base: u32,
    pub reset: u32,
    pub routines: Vec<u8>,
    pub marks: Vec<u8>,
}

impl BuildCase {
    /// A program with a list of these of its starts, their marks at their
    /// places. The program's own marks are left out.
    pub fn listing(program: CheckCase, listed: &[u8]) -> BuildCase {
        BuildCase {
            routines: starts_of(listed, program.base).into_bytes(),
            marks: vec![MARK_BEFORE; program.image.len()],
            image: program.image,
            base: program.base,
            reset: program.reset,
        }
    }

    /// The answer and the marks after it.
    pub fn answer(&self) -> (u64, Vec<u8>) {
        let mut marks = self.marks.clone();
        let BuildCase {
            image,
            base,
            reset,
            routines,
            ..
        } = self;
        let answer = build_marks(image, *base, *reset, routines, &mut marks);
        (answer, marks)
    }
}

/// What marks hold before the call, if nothing else is drawn.
const MARK_BEFORE: u8 = 0x5A;

/// Marks before the call, of whatever content: most would not do.
fn marks_before(rng: &mut Rng, length: usize) -> Vec<u8> {
    match rng.below(4) {
        0 => vec![*rng.pick(&[0, START, 0xFF]); length],
        1 => (0..length).map(|_| rng.byte()).collect(),
        _ => vec![MARK_BEFORE; length],
    }
}

/// Mostly small cases of all sorts.
pub fn build_case(rng: &mut Rng) -> BuildCase {
    match rng.below(100) {
        0 => {
            let count = *rng.pick(&[255, 256, 256, 257, 258]);
            many_routines(rng, count)
        }
        1..=39 => fitting(rng),
        40..=69 => misfit(rng),
        70..=84 => tiny(rng),
        85..=92 => malformed(rng),
        93..=96 => hostile(rng),
        _ => misplaced(rng),
    }
}

/// A case that is answered with this number: 0, 1, 2, 14 or 17. Many of the
/// refused ones break a rule too that is tested later.
pub fn build_by(rng: &mut Rng, number: u8) -> BuildCase {
    loop {
        let case = aimed(rng, number);
        if case.answer().0 as u8 == number {
            return case;
        }
    }
}

fn aimed(rng: &mut Rng, number: u8) -> BuildCase {
    match number {
        0 if rng.chance(1, 4) => tiny(rng),
        0 => fitting(rng),
        LIST => malformed(rng),
        LENGTH if rng.chance(1, 8) => hostile(rng),
        LENGTH => {
            let mut case = any(rng);
            let length = case.image.len();
            let other = *rng.pick(&[0, length - 1, length + 1, length + 256]);
            case.marks.resize(other, MARK_BEFORE);
            if rng.chance(1, 3) {
                case.base = broken_base(rng, length);
            }
            case
        }
        BASE => misplaced(rng),
        _ if rng.chance(1, 4) => tiny(rng),
        _ => misfit(rng),
    }
}

/// One that fits, or one that does not, some for their many routines.
fn any(rng: &mut Rng) -> BuildCase {
    match rng.below(32) {
        0 => {
            let count = 256 + rng.index(50);
            many_routines(rng, count)
        }
        1..=15 => fitting(rng),
        _ => misfit(rng),
    }
}

/// An accepted program with a list of the starts that its calls go to, and of
/// some that are never called; one time out of three in four digits, if it lies
/// within one bank.
pub fn fitting(rng: &mut Rng) -> BuildCase {
    let program = accepted(rng);
    let listed = listed(rng, &program);
    let mut case = BuildCase::listing(program, &listed);
    case.marks = marks_before(rng, case.image.len());
    if in_one_bank(case.image.len(), case.base) && rng.chance(1, 3) {
        case.routines = routines_in(&case.routines, |_| 4);
    }
    case
}

/// The marks of the starts on a list of this program.
fn listed(rng: &mut Rng, program: &CheckCase) -> Vec<u8> {
    let called = called(program);
    let mut listed = called.clone();
    let others = *rng.pick(&[0, 0, 1, 8]);
    for (place, &mark) in listed.iter_mut().zip(&program.marks) {
        if rng.chance(others, 16) {
            *place = mark;
        }
    }
    if starts(&listed).len() > MAX_ROUTINES {
        called
    } else {
        listed
    }
}

/// The marks of the starts that an accepted program's calls go to, no others.
pub fn called(program: &CheckCase) -> Vec<u8> {
    let mut listed = vec![0; program.marks.len()];
    for at in (0..listed.len()).filter(|&at| program.marks[at] != 0) {
        let next = program.base + at as u32 + 3;
        let address = match program.image[at..] {
            [0x20, low, high, ..] => u32::from_le_bytes([low, high, 0, 0]) | bank(next),
            [0x22, low, high, bank, ..] => u32::from_le_bytes([low, high, bank, 0]),
            _ => continue,
        };
        let target = (address - program.base) as usize;
        listed[target] = program.marks[target];
    }
    listed
}

/// The ways in which `misfit_by` breaks a case.
pub const MISFITS: u64 = 12;

/// A list and an image that mostly do not go together.
fn misfit(rng: &mut Rng) -> BuildCase {
    let way = rng.below(MISFITS);
    misfit_by(rng, way)
}

/// Likewise, broken in a given way as far as that goes.
pub fn misfit_by(rng: &mut Rng, way: u64) -> BuildCase {
    let mut program = accepted(rng);
    let mut listed = listed(rng, &program);
    let length = program.image.len();
    let at = rng.index(length);
    match way {
        // A call's target is not listed, or with other widths, another kind
        // or another return; or another routine so.
        0..=3 => alter_routine(rng, &mut listed, way),
        // A start that is listed otherwise than it is reached.
        4 => {
            let reached = starts(&program.marks);
            listed[*rng.pick(&reached)] = good_mark(rng);
        }
        // A routine on a later byte of an instruction, or in a gap.
        5 => {
            let others: Vec<usize> = (0..length).filter(|&k| program.marks[k] == 0).collect();
            if !others.is_empty() {
                listed[*rng.pick(&others)] = good_mark(rng);
            }
        }
        6 => listed[(program.reset - program.base) as usize] = good_mark(rng),
        7 => program.reset = other_reset(rng, &program),
        8 => program.image[at] ^= 1 << rng.below(8),
        9 => program.image[at] = rng.byte(),
        10 => {
            program.image.truncate(at + 1);
            listed.truncate(at + 1);
        }
        _ => return outside(rng, program, &listed),
    }
    BuildCase::listing(program, &listed)
}

fn starts(marks: &[u8]) -> Vec<usize> {
    (0..marks.len()).filter(|&at| marks[at] != 0).collect()
}

/// Takes a routine off the list, or changes its widths, kind or return.
fn alter_routine(rng: &mut Rng, listed: &mut [u8], way: u64) {
    let routines = starts(listed);
    if routines.is_empty() {
        return;
    }
    let mark = &mut listed[*rng.pick(&routines)];
    match way {
        0 => *mark = 0,
        1 => *mark ^= *rng.pick(&[marks::M, marks::X]),
        2 if *mark & marks::KIND != 0 => *mark ^= marks::KIND,
        2 => *mark |= KIND_RTS,
        _ if *mark & marks::KIND != 0 => *mark ^= *rng.pick(&[marks::RETURN_M, marks::RETURN_X]),
        _ => *mark |= KIND_RTL | marks::RETURN_X,
    }
}

/// At another byte of the image, right outside it, in other banks, and above
/// FFFFFF.
fn other_reset(rng: &mut Rng, program: &CheckCase) -> u32 {
    let first = program.base;
    let end = first + program.image.len() as u32;
    let inside = first + rng.index(program.image.len()) as u32;
    *rng.pick(&[
        inside,
        inside,
        end,
        first.wrapping_sub(1),
        program.reset & 0xFFFF,
        program.reset ^ 0x1_0000,
        program.reset | 0x100_0000,
        u32::MAX,
    ])
}

/// A routine too many, in its order, right outside the image or far from it.
fn outside(rng: &mut Rng, program: CheckCase, listed: &[u8]) -> BuildCase {
    let first = program.base;
    let end = first + program.image.len() as u32;
    let below = *rng.pick(&[0, first & 0xFFFF, bank(first), first.saturating_sub(1)]);
    let above = *rng.pick(&[end, end + 1, end | 0xFFFF, MAX_ADDRESS]);
    let line = |address: u32| start_line(address, RESET_MARK);
    let mut case = BuildCase::listing(program, listed);
    if below < first && rng.chance(1, 2) {
        case.routines = [line(below).as_bytes(), &case.routines].concat();
    } else if (end..=MAX_ADDRESS).contains(&above) {
        case.routines.extend_from_slice(line(above).as_bytes());
    }
    case
}

/// Codes with one byte or two, starts of longer ones, and operands that lead
/// into an image of a few bytes at 00C000 or across a bank's end.
const TINY: [u8; 28] = [
    0xEA, 0xF8, 0xD8, 0xE2, 0xC2, 0x30, 0x20, 0x22, 0x60, 0x6B, 0x80, 0xF0, 0xA9, 0xA2, 0xDB, 0xCB,
    0x42, 0x89, 0x4C, 0x00, 0x01, 0x02, 0x03, 0x04, 0x05, 0xFD, 0xFE, 0xC0,
];

/// An image of a few drawn bytes with a few drawn routines.
fn tiny(rng: &mut Rng) -> BuildCase {
    let length = 1 + rng.index(9);
    let mut image: Vec<u8> = (0..length).map(|_| *rng.pick(&TINY)).collect();
    let base = *rng.pick(&[0xC000, 0xC000, 0xFFFD, 0x12_FFFE]);
    if length > 4 && rng.chance(1, 2) {
        let target = base + 3 + rng.index(length - 3) as u32;
        let [low, high, ..] = target.to_le_bytes();
        image[..3].copy_from_slice(&[0x20, low, high]);
        image[length - 1] = *rng.pick(&[0x60, 0xDB]);
    }
    let few = [START, START | KIND_RTS, good_mark(rng)];
    let mark = |_| match rng.chance(1, 3) {
        true => *rng.pick(&few),
        false => 0,
    };
    let listed: Vec<u8> = (0..length).map(mark).collect();
    let reset = match rng.below(4) {
        0 => base + rng.index(length) as u32,
        _ => base,
    };
    let mut case = BuildCase::listing(at(base, reset, image), &listed);
    case.marks = marks_before(rng, length);
    case
}

/// An image, no marks yet.
pub(super) fn at(base: u32, reset: u32, image: Vec<u8>) -> CheckCase {
    CheckCase {
        marks: vec![0; image.len()],
        image,
        base,
        reset,
    }
}

/// A text that is mostly no routine list; all else of any sort.
fn malformed(rng: &mut Rng) -> BuildCase {
    let mut case = any(rng);
    break_text(rng, &mut case.routines);
    let length = case.image.len();
    match rng.below(6) {
        0 => case.marks.truncate(length / 2),
        1 => case.base = broken_base(rng, length),
        _ => {}
    }
    case
}

fn break_text(rng: &mut Rng, text: &mut Vec<u8>) {
    if text.is_empty() {
        let only: [&[u8]; 5] = [b"\n", b"I", b"\0", b"C000", b"I\t00C000\t5\tC000\n"];
        text.extend_from_slice(*rng.pick(&only));
        return;
    }
    let lines = text.iter().filter(|&&b| b == b'\n').count();
    match rng.below(11) {
        0 => overlong(rng, text),
        1 => reorder(rng, text),
        2 => text.truncate(rng.index(text.len())),
        3 => {
            text.pop();
        }
        4 => text.insert(text.len() / lines * rng.index(lines), b'\n'),
        5 => {
            let tails: [&[u8]; 5] = [b"\n", b"\0", b"F", LAST_ADDRESS, b"FFFF\t0\t0\tN\t0\t0\n"];
            text.extend_from_slice(*rng.pick(&tails));
        }
        6 => {
            let head = b"I\t00C000\t5\tC000\n";
            *text = [&head[..], text].concat();
        }
        7 => {
            let odd = rng.index(lines);
            *text = routines_in(text, |line| if line == odd { 4 } else { 6 });
        }
        8 => {
            let digits = *rng.pick(&[3, 5, 7, 8]);
            *text = routines_in(text, |_| digits);
        }
        _ => damage_byte(rng, text),
    }
}

/// A line that is not closed.
const LAST_ADDRESS: &[u8] = b"FFFFFF\t0\t0\tN\t0\t0";

/// Lengths, bases and resets at and past their limits, with no routine, the
/// reset's or one on the last byte.
fn hostile(rng: &mut Rng) -> BuildCase {
    let CheckCase {
        image,
        marks,
        base,
        reset,
    } = hostile_check(rng);
    let first = base & MAX_ADDRESS;
    let last = (first + image.len() as u32).saturating_sub(1) & MAX_ADDRESS;
    let routines = match rng.below(3) {
        0 => String::new(),
        1 => start_line(first, START),
        _ => start_line(last, *rng.pick(&[START, START | KIND_RTS])),
    };
    BuildCase {
        image,
        base,
        reset,
        routines: routines.into_bytes(),
        marks,
    }
}

/// At a base that 2 refuses, or over a bank's end with a list in four digits,
/// whatever else may not fit.
fn misplaced(rng: &mut Rng) -> BuildCase {
    let mut case = any(rng);
    let length = case.image.len();
    case.base = broken_base(rng, length);
    if length > 1 && rng.chance(1, 2) {
        case.base = crossing_base(rng, length);
        case.routines = starts_of(&[START, START], bank(case.base)).into_bytes();
        case.routines = routines_in(&case.routines, |_| 4);
    }
    case
}

/// So many routines in an image that has them all: neighbours that the reset
/// leads through, or each its own return.
pub fn many_routines(rng: &mut Rng, count: usize) -> BuildCase {
    let length = count + 1;
    let mut image = vec![0xEA; length];
    let mut listed = vec![START; length];
    if rng.chance(1, 2) {
        for (byte, mark) in image.iter_mut().zip(&mut listed) {
            let (code, kind) = *rng.pick(&[(0x60, KIND_RTS), (0x6B, KIND_RTL)]);
            let widths = *rng.pick(&[0, marks::M, marks::X, marks::M | marks::X]);
            (*byte, *mark) = (code, START | widths | kind | widths << 4);
        }
        image[0] = 0xDB;
    }
    // The reset's line would be one more.
    listed[0] = 0;
    if image[length - 1] == 0xEA {
        image[length - 1] = 0xDB;
    }
    let base = sound_base(rng, length, 0);
    BuildCase::listing(at(base, base, image), &listed)
}
