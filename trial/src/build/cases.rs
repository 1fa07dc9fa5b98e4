//! Cases for the building of marks beyond the generator's own: long images,
//! and sweeps over codes, flows, texts, tiny images, ends of banks, numbers of
//! routines and limits.

use crate::check::cases::{self as checks, bases, mixed_code, small, FLOWS};
use crate::lists::cases::{every_damage, every_order};
use sim7700::generate::{
    backwards, bank_programs, build_by, build_case, called, calling, codes_in_a_row,
    digit_routines, every_code, hand_made, routines_in, start_line, straight, BuildCase, CheckCase,
    HandMade, Rng,
};
use sim7700::marks::{is_start, well_formed, KIND, START};
use sim7700::numbers::{MAX_ADDRESS, MAX_IMAGE, MAX_ROUTINES};

const NOP: u8 = 0xEA;
const BEQ: u8 = 0xF0;
const STP: u8 = 0xDB;

/// A case of the generator, seldom a long one.
pub fn drawn(rng: &mut Rng) -> BuildCase {
    match rng.below(2_000) {
        0 => long(rng),
        1..=200 => {
            let number = *rng.pick(&[0, 1, 2, 14, 17]);
            build_by(rng, number)
        }
        _ => build_case(rng),
    }
}

/// A long image of one of four sorts, half of them with one byte changed.
fn long(rng: &mut Rng) -> BuildCase {
    let length = match rng.below(4) {
        0 => MAX_IMAGE,
        _ => 2_000 + 4 * rng.index((MAX_IMAGE - 2_000) / 4),
    };
    let mut case = match rng.below(4) {
        0 => straight(rng, length),
        1 => backwards(rng, length),
        2 => calling(rng, length),
        _ => {
            let program = mixed_code(rng, length.min(6_000));
            let listed = called(&program);
            BuildCase::listing(program, &listed)
        }
    };
    if rng.chance(1, 2) {
        let at = rng.index(case.image.len());
        case.image[at] ^= 1 << rng.below(8);
    }
    case
}

/// Hands each case of the sweeps to `visit`.
pub fn sweeps(rng: &mut Rng, mut visit: impl FnMut(&BuildCase)) {
    for mut case in hand_made().iter().map(HandMade::case) {
        for before in [0, START, 0xA5, 0xFF] {
            case.marks.fill(before);
            visit(&case);
        }
    }
    // Every start on the list, whether the check accepts it or not.
    checks::sweeps(rng, |program| visit(&every_start(program)));
    every_flow(&mut visit);
    let programs = every_code(rng).into_iter().chain(codes_in_a_row(rng));
    for program in programs.chain(bank_programs()) {
        visit(&every_routine(program));
    }
    digit_routines().iter().for_each(&mut visit);
    every_text(&mut visit);
    every_tiny(&mut visit);
    // In a bank, and around its end.
    for base in [0xC000, 0xFFFD, 0xFFFE, 0x12_FFFC] {
        every_call(base, &mut visit);
    }
    every_count(&mut visit);
    every_limit(&mut visit);
    longest(rng, &mut visit);
}

/// A program with a list of all its starts of good form.
fn every_start(program: &CheckCase) -> BuildCase {
    let good = |&mark: &u8| match is_start(mark) && well_formed(mark) {
        true => mark,
        false => 0,
    };
    let listed: Vec<u8> = program.marks.iter().map(good).collect();
    BuildCase::listing(program.clone(), &listed)
}

/// A program with a list of what is called and of what returns.
fn every_routine(program: CheckCase) -> BuildCase {
    let mut listed = called(&program);
    for (place, &mark) in listed.iter_mut().zip(&program.marks) {
        if mark & KIND != 0 {
            *place = mark;
        }
    }
    BuildCase::listing(program, &listed)
}

/// All marks of good form, none among them.
fn good_marks() -> Vec<u8> {
    (0..=255).filter(|&mark| well_formed(mark)).collect()
}

/// Instructions whose rule looks at marks, all marks of good form at the
/// instruction and at its target; the next address is worked out.
fn every_flow(visit: &mut impl FnMut(&BuildCase)) {
    for instruction in FLOWS {
        let program = small(&[&[STP], instruction, &[STP, STP]].concat());
        let target = instruction.len() + 2;
        for &mark in &good_marks() {
            for &other in &good_marks() {
                let mut listed = vec![0; target + 1];
                (listed[1], listed[target]) = (mark, other);
                visit(&BuildCase::listing(program.clone(), &listed));
            }
        }
    }
}

/// A list for an image of STP, in which each byte but the reset's may be any
/// routine, in six digits and in four: damaged at each byte, its lines in other
/// orders, some of them in other digits.
fn every_text(visit: &mut impl FnMut(&BuildCase)) {
    let mut program = small(&[STP; 32]);
    (program.base, program.reset) = (0x12_C0F8, 0x12_C0FF);
    let mut listed = [0; 32];
    (listed[1], listed[7], listed[8], listed[31]) = (0x01, 0x01, 0x2F, 0x71);
    let case = BuildCase::listing(program, &listed);
    let mut visit_text = |routines| {
        visit(&BuildCase {
            routines,
            ..case.clone()
        })
    };
    for text in [&case.routines, &routines_in(&case.routines, |_| 4)] {
        every_damage(text, &mut visit_text);
        every_order(text, &mut visit_text);
    }
    for choice in 0..1 << 4 {
        let digits = |line: usize| if choice >> line & 1 == 1 { 4 } else { 6 };
        visit_text(routines_in(&case.routines, digits));
    }
}

/// Codes of one byte and more, and operands.
const ALPHABET: [u8; 13] = [
    NOP, STP, BEQ, 0xF8, 0xD8, 0xE2, 0x60, 0x6B, 0x80, 0xA9, 0xFE, 0x01, 0x00,
];
/// Marks of routines in tiny images.
const FEW: [u8; 9] = [0x01, 0x03, 0x05, 0x09, 0x0B, 0x2B, 0x29, 0x11, 0x77];

/// Images of three bytes, without a routine, with one and with two.
fn every_tiny(visit: &mut impl FnMut(&BuildCase)) {
    for code in 0..ALPHABET.len().pow(3) {
        let byte = |place: u32| ALPHABET[code / ALPHABET.len().pow(place) % ALPHABET.len()];
        let program = small(&[byte(0), byte(1), byte(2)]);
        let mut visit = |listed: [u8; 3]| visit(&BuildCase::listing(program.clone(), &listed));
        visit([0; 3]);
        for first in FEW {
            visit([first, 0, 0]);
            visit([0, first, 0]);
            visit([0, 0, first]);
            for second in FEW {
                visit([0, first, second]);
            }
        }
    }
}

/// Calls in five bytes to each byte of the image and beside it, with each
/// routine on the last byte, alone and with another one.
fn every_call(base: u32, visit: &mut impl FnMut(&BuildCase)) {
    let ends = [NOP, STP, 0xF8, 0xD8, 0x60, 0x6B];
    for (target, after) in (0..6).flat_map(|t| ends.map(|after| (t, after))) {
        let [low, high, ..] = (base + target).to_le_bytes();
        for last in ends {
            let mut program = small(&[0x20, low, high, after, last]);
            (program.base, program.reset) = (base, base);
            for mark in good_marks() {
                for other in [0, 0x01, 0x03, 0x09] {
                    let listed = [0, 0, 0, other, mark];
                    visit(&BuildCase::listing(program.clone(), &listed));
                }
            }
        }
    }
}

/// Each number of routines up to 600 in an image that has them all, also with
/// marks of another length, at a base that is refused, with the last line out
/// of form; equal and descending neighbours at each place.
fn every_count(visit: &mut impl FnMut(&BuildCase)) {
    let program = small(&[STP; 601]);
    for count in 0..=600 {
        let mut listed = vec![0x2B; count + 1];
        listed[0] = 0;
        let case = BuildCase::listing(program.clone(), &listed);
        let [mut shorter, mut above, mut open] = [0; 3].map(|_| case.clone());
        shorter.marks.pop();
        above.base = 0x100_C000;
        open.routines.pop();
        for case in [case, shorter, above, open] {
            visit(&case);
        }
    }
    let listed = [&[0], &[START; MAX_ROUTINES][..]].concat();
    let case = BuildCase::listing(program, &listed);
    let lines: Vec<&[u8]> = case.routines.chunks(17).collect();
    for place in 1..MAX_ROUTINES {
        let mut twice = lines.clone();
        twice[place] = lines[place - 1];
        let mut swapped = lines.clone();
        swapped.swap(place - 1, place);
        for lines in [twice, swapped] {
            visit(&BuildCase {
                routines: lines.concat(),
                ..case.clone()
            });
        }
    }
}

/// Lengths around the limit, marks of other lengths, at bases around the ends
/// of banks, with resets and routines in and outside the image.
fn every_limit(visit: &mut impl FnMut(&BuildCase)) {
    for length in [0, 1, 2, MAX_IMAGE - 1, MAX_IMAGE, MAX_IMAGE + 1] {
        for base in bases(length as u32) {
            for marks_len in [length, length + 1, length.saturating_sub(1)] {
                every_reset(length, marks_len, base, visit);
            }
        }
    }
}

/// An image of STP: resets and routines on its first byte and its last and
/// beside these, the routines in six digits and in four; resets in other banks, a
/// text that is no list.
fn every_reset(length: usize, marks_len: usize, base: u32, visit: &mut impl FnMut(&BuildCase)) {
    let end = base.wrapping_add(length as u32);
    let near = [base.wrapping_sub(1), base, end.wrapping_sub(1), end];
    let line = |address: u32| start_line(address & MAX_ADDRESS, START).into_bytes();
    for reset in near.into_iter().chain([base ^ 0x1_0000, u32::MAX]) {
        let mut case = BuildCase {
            image: vec![STP; length],
            base,
            reset,
            routines: Vec::new(),
            marks: vec![0xA5; marks_len],
        };
        visit(&case);
        for address in near {
            case.routines = line(address);
            visit(&case);
            case.routines = routines_in(&case.routines, |_| 4);
            visit(&case);
        }
        case.routines.push(b'\n');
        visit(&case);
    }
}

/// The longest images: each sort, whole and with its last byte changed; a
/// start on every byte; branches that all wait; more lines than any image has
/// bytes.
fn longest(rng: &mut Rng, visit: &mut impl FnMut(&BuildCase)) {
    for sort in [straight, backwards, calling] {
        let mut case = sort(rng, MAX_IMAGE);
        visit(&case);
        case.image[MAX_IMAGE - 1] = 0;
        visit(&case);
    }
    let mut nops = vec![NOP; MAX_IMAGE];
    nops[MAX_IMAGE - 1] = STP;
    let mut branches = [BEQ, 2].repeat(MAX_IMAGE / 2 - 2);
    branches.extend([STP; 4]);
    for image in [nops, branches] {
        visit(&BuildCase::listing(small(&image), &[]));
    }
    let mut case = BuildCase::listing(small(&[STP; MAX_IMAGE]), &[]);
    let all: String = (0..0x1_0000).map(|a| start_line(a, START)).collect();
    case.routines = all.into_bytes();
    visit(&case);
    case.routines.pop();
    visit(&case);
}
