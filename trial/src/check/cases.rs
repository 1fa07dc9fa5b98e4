//! Cases for the check beyond the generator's own: long images, and sweeps
//! over all codes and all pairs of marks, around the ends of banks, and over
//! lengths, bases and resets.

use sim7700::codes::{entry_of, Word, PREFIX_42, PREFIX_89};
use sim7700::generate::{accepted, bank_checks, check_case, CheckCase, Rng, BANK_ENDS};
use sim7700::marks::{self, well_formed, START};
use sim7700::numbers::{MAX_ADDRESS, MAX_IMAGE};

const NOP: u8 = 0xEA;
const STP: u8 = 0xDB;
const WIDTHS: [u8; 4] = [0, marks::M, marks::X, marks::M | marks::X];

/// A case of the generator, seldom a long one.
pub fn drawn(rng: &mut Rng) -> CheckCase {
    match rng.below(2_000) {
        0 => long(rng),
        _ => check_case(rng),
    }
}

/// A long image of mixed code, three times out of four with one byte or mark
/// changed.
pub fn long(rng: &mut Rng) -> CheckCase {
    let length = match rng.below(4) {
        0 => MAX_IMAGE,
        _ => 2_000 + rng.index(MAX_IMAGE - 2_000),
    };
    let mut case = mixed_code(rng, length);
    let at = rng.index(length);
    match rng.below(4) {
        0 => case.image[at] ^= 1 << rng.below(8),
        1 => case.marks[at] ^= 1 << rng.below(8),
        2 => case.marks[at] = 0,
        _ => {}
    }
    case
}

/// An accepted image of exactly this length at any base: accepted programs one
/// behind another, then NOPs and a last STP. Over a bank's end goes a program
/// that is accepted there.
pub fn mixed_code(rng: &mut Rng, length: usize) -> CheckCase {
    let base = any_base(rng, length);
    let mut whole = CheckCase {
        image: Vec::with_capacity(length),
        marks: Vec::with_capacity(length),
        base,
        reset: base,
    };
    let mut misfits = 0;
    while misfits < 8 {
        let mut part = accepted(rng);
        let at = whole.image.len();
        if at + part.image.len() >= length {
            misfits += 1;
            continue;
        }
        move_to(&mut part, whole.base + at as u32);
        if sim7700::check(&part.image, &part.marks, part.base, part.reset) != 0 {
            continue;
        }
        if at == 0 {
            whole.reset = part.reset;
        }
        whole.image.append(&mut part.image);
        whole.marks.append(&mut part.marks);
    }
    whole.image.resize(length - 1, NOP);
    whole.image.push(STP);
    whole.marks.resize(length, START);
    whole
}

/// A base at which an image of this length ends at or below FFFFFF.
pub fn any_base(rng: &mut Rng, length: usize) -> u32 {
    rng.below(0x100_0000 - length as u64 + 1) as u32
}

/// Moves a program to another base: absolute targets and the reset follow.
fn move_to(case: &mut CheckCase, base: u32) {
    let by = base.wrapping_sub(case.base);
    for at in (0..case.image.len()).filter(|&at| case.marks[at] != 0) {
        let bytes = match case.image[at] {
            0x20 | 0x4C => 2, // JSR, JMP absolute
            0x22 | 0x5C => 3, // JSR, JMP long
            _ => continue,
        };
        let target = &mut case.image[at + 1..at + 1 + bytes];
        let mut address = [0; 4];
        address[..bytes].copy_from_slice(target);
        let moved = u32::from_le_bytes(address).wrapping_add(by);
        target.copy_from_slice(&moved.to_le_bytes()[..bytes]);
    }
    case.reset = case.reset.wrapping_add(by);
    case.base = base;
}

/// An accepted image of one-byte codes, each of them a start.
pub fn one_byte_codes(rng: &mut Rng, length: usize) -> CheckCase {
    let fits = |code: &u8| {
        let entry = entry_of(0, *code);
        let bound = matches!(entry.word, Word::RTS | Word::RTL | Word::SEM | Word::CLM);
        entry.carried && entry.lengths == [1; 4] && !bound
    };
    let codes: Vec<u8> = (0..=255).filter(fits).collect();
    let mut image: Vec<u8> = (1..length).map(|_| *rng.pick(&codes)).collect();
    image.push(STP);
    CheckCase {
        image,
        marks: vec![START; length],
        base: 0xC000,
        reset: 0xC000,
    }
}

/// Hands each case of the sweeps to `visit`.
pub fn sweeps(rng: &mut Rng, mut visit: impl FnMut(&CheckCase)) {
    every_code(rng, &mut visit);
    every_form(&mut visit);
    for instruction in FLOWS {
        every_marking(instruction, &mut visit);
    }
    bank_checks().iter().for_each(&mut visit);
    for end in BANK_ENDS.into_iter().chain([MAX_ADDRESS + 1]) {
        around(end, &mut visit);
    }
    every_place(|case| visit(&case));
}

/// Bytes on either side of an end.
const BESIDE: usize = 8;

/// STP on each byte beside a bank's end, and each instruction with a target at
/// each place among them, to each address there in its bank and beside it.
fn around(end: u32, visit: &mut impl FnMut(&CheckCase)) {
    let base = end - BESIDE as u32;
    let length = if end > MAX_ADDRESS {
        BESIDE
    } else {
        2 * BESIDE
    };
    for to in base - 1..=base + length as u32 {
        let [low, middle, high, _] = to.to_le_bytes();
        for code in [0x4C, 0x20] {
            every_first(base, length, &[code, low, middle], to, visit);
        }
        for high in [high.wrapping_sub(1), high, high.wrapping_add(1)] {
            every_first(base, length, &[0x5C, low, middle, high], to, visit);
            every_first(base, length, &[0x22, low, middle, high], to, visit);
        }
    }
    for by in -(length as i8)..length as i8 {
        let [low, high] = (by as i16).to_le_bytes();
        for branch in [&[0x80, low][..], &[0xF0, low], &[0x82, low, high]] {
            every_first(base, length, branch, base, visit);
        }
    }
    for other in [
        &[NOP][..],
        &[STP],
        &[0x60],
        &[0xA9, 0, 0],
        &[0x3C, 0, 0, 0, 0, 0],
    ] {
        every_first(base, length, other, base, visit);
    }
}

/// An instruction at each place; the target's byte marked as a start of each
/// kind.
fn every_first(
    base: u32,
    length: usize,
    instruction: &[u8],
    to: u32,
    visit: &mut impl FnMut(&CheckCase),
) {
    for first in 0..=length - instruction.len() {
        let mut case = CheckCase {
            image: vec![STP; length],
            marks: vec![START; length],
            base,
            reset: base,
        };
        case.image[first..][..instruction.len()].copy_from_slice(instruction);
        case.marks[first + 1..first + instruction.len()].fill(0);
        let target = to.wrapping_sub(base) as usize;
        for kind in [0, marks::KIND_RTS, marks::KIND_RTL] {
            if let Some(mark @ 1..) = case.marks.get_mut(target) {
                *mark = START | kind;
            }
            visit(&case);
        }
    }
}

/// Lengths around the limit, marks of other lengths, at bases around the ends
/// of banks and of all addresses, with resets in and outside the image.
pub fn every_place(mut visit: impl FnMut(CheckCase)) {
    for length in [0, 1, 2, MAX_IMAGE - 1, MAX_IMAGE, MAX_IMAGE + 1] {
        for base in bases(length as u32) {
            for marks_len in [length, length + 1, length.saturating_sub(1)] {
                every_reset(length, marks_len, base, &mut visit);
            }
        }
    }
}

/// From 000000 on, up to and across a bank's end, up to FFFFFF and past it.
pub fn bases(length: u32) -> [u32; 8] {
    let (end, last) = (0x2_0000 - length, 0x100_0000 - length);
    [0, 0xC000, 0xFFFF, end, end + 1, last, last + 1, 0x100_0000]
}

/// STP on the first byte and on the last, and resets around them.
fn every_reset(length: usize, marks_len: usize, base: u32, visit: &mut impl FnMut(CheckCase)) {
    let mut marks = vec![0; marks_len];
    for mark in marks.iter_mut().step_by(length.saturating_sub(1).max(1)) {
        *mark = START;
    }
    let end = base + length as u32;
    let beside = [base.wrapping_sub(1), base, end.wrapping_sub(1), end];
    for reset in beside
        .into_iter()
        .chain([base ^ 0x1_0000, base | 0x100_0000])
    {
        visit(CheckCase {
            image: vec![STP; length],
            marks: marks.clone(),
            base,
            reset,
        });
    }
}

/// Each code of the three pages at each pair of widths, cut off behind each
/// byte, alone and with a second start on each byte behind it.
fn every_code(rng: &mut Rng, visit: &mut impl FnMut(&CheckCase)) {
    let pages: [&[u8]; 3] = [&[], &[PREFIX_42], &[PREFIX_89]];
    for prefix in pages {
        for code in 0..=255 {
            let mut image = [&[STP], prefix, &[code]].concat();
            image.resize_with(8, || rng.edge_byte());
            for (length, widths) in (2..=8).flat_map(|n| WIDTHS.map(|w| (n, w))) {
                cut(&image[..length], START | widths, visit);
            }
        }
    }
}

/// STP and then an instruction with this mark, alone and with a second start.
fn cut(image: &[u8], mark: u8, visit: &mut impl FnMut(&CheckCase)) {
    let mut case = small(image);
    case.marks[0] = START;
    case.marks[1] = mark;
    visit(&case);
    for second in 2..image.len() {
        case.marks[second] = mark;
        visit(&case);
        case.marks[second] = 0;
    }
}

/// Each mark byte, on a byte that is not the reset's.
fn every_form(visit: &mut impl FnMut(&CheckCase)) {
    let mut case = small(&[STP, STP]);
    for mark in 0..=255 {
        case.marks.copy_from_slice(&[START, mark]);
        visit(&case);
    }
}

/// Instructions whose rule looks at marks. Those with a target have it a byte
/// behind the next address, from offset 1 at 00C000.
pub const FLOWS: [&[u8]; 24] = [
    &[NOP],
    &[STP],
    &[0xCB],       // WIT
    &[0x60],       // RTS
    &[0x6B],       // RTL
    &[0xF8],       // SEM
    &[0xD8],       // CLM
    &[0xE2, 0x00], // SEP
    &[0xE2, 0x10],
    &[0xE2, 0x20],
    &[0xE2, 0x30],
    &[0xE2, 0xCF],
    &[0xC2, 0x00], // CLP
    &[0xC2, 0x10],
    &[0xC2, 0x20],
    &[0xC2, 0x30],
    &[0xC2, 0xCF],
    &[0xF0, 0x01],             // BEQ
    &[0x80, 0x01],             // BRA
    &[0x82, 0x01, 0x00],       // BRA, 16 bits
    &[0x4C, 0x05, 0xC0],       // JMP
    &[0x5C, 0x06, 0xC0, 0x00], // JMP long
    &[0x20, 0x05, 0xC0],       // JSR
    &[0x22, 0x06, 0xC0, 0x00], // JSR long
];

/// All marks of good form at an instruction, at its next address and at its
/// target.
fn every_marking(instruction: &[u8], visit: &mut impl FnMut(&CheckCase)) {
    let good: Vec<u8> = (0..=255).filter(|&mark| well_formed(mark)).collect();
    let mut case = small(&[&[STP], instruction, &[STP, STP]].concat());
    let next = 1 + instruction.len();
    case.marks[0] = START;
    for &mark in &good {
        for &after in &good {
            for &target in &good {
                case.marks[1] = mark;
                case.marks[next] = after;
                case.marks[next + 1] = target;
                visit(&case);
            }
        }
    }
}

/// An image at 00C000 with the reset on its first byte, no marks yet.
pub fn small(image: &[u8]) -> CheckCase {
    CheckCase {
        image: image.to_vec(),
        marks: vec![0; image.len()],
        base: 0xC000,
        reset: 0xC000,
    }
}
