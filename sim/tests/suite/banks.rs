//! Images over several banks (02, R-7): the bank of the address just after an
//! instruction in check and machine, and the whole address everywhere else.

use crate::common::*;
use sim7700::generate::{self, CheckCase, Rng};
use sim7700::state::Registers;
use sim7700::{check, run};
use std::collections::BTreeSet;

fn answer(case: &CheckCase) -> u32 {
    check(&case.image, &case.marks, case.base, case.reset)
}

/// End, steps and calls of a program from its reset.
fn ran(case: &CheckCase) -> Answer {
    let mut bench = Bench::at(case.base, &case.image);
    bench.r.pc = case.reset;
    bench.run(20)
}

/// The programs in their order, around each bank's end.
const ENDS: [Answer; 18] = [
    // JMP.
    (22, 1, 0),
    (22, 1, 0),
    (22, 1, 0),
    (22, 2, 0),
    (22, 1, 0),
    // JSR.
    (22, 2, 1),
    (22, 2, 1),
    (22, 2, 1),
    // RTS in the first byte of a bank, and in the last, by calls of both banks.
    (22, 2, 1),
    (24, 1, 1),
    (22, 3, 1),
    // A routine over a bank's end.
    (24, 3, 1),
    // JSR long and RTL.
    (22, 2, 1),
    (22, 2, 1),
    // Branches.
    (22, 1, 0),
    (22, 1, 0),
    (22, 3, 0),
    // BBC, SEM, LDA.
    (22, 3, 0),
];

#[test]
fn programs_around_bank_ends_are_accepted_and_run() {
    let programs = generate::bank_programs();
    assert_eq!(programs.len(), 3 * ENDS.len());
    for (program, end) in programs.iter().zip(ENDS.iter().cycle()) {
        assert_eq!(answer(program), 0, "{program:02X?}");
        assert_eq!(ran(program), *end, "{program:02X?}");
    }
}

/// 4C 01 00 that ends at 00FFFF goes to 010001, and so do its like that end at
/// the next three addresses; a byte before, it stays in bank 0.
#[test]
fn a_jump_uses_the_bank_behind_it() {
    for base in [0x00_FFFD, 0x00_FFFE, 0x00_FFFF, 0x01_0000] {
        let mut bench = Bench::at(base, &[0x4C, 0x01, 0x00]);
        bench.step();
        assert_eq!(bench.r.pc, 0x01_0001);
        let mut bench = Bench::at(base, &[0x20, 0x01, 0x00]);
        bench.step();
        assert_eq!(bench.r.pc, 0x01_0001);
        assert_eq!(bench.calls, [(base + 3, 1)]);
    }
    for code in [0x4C, 0x20] {
        let mut bench = Bench::at(0x00_FFFC, &[code, 0x01, 0x00]);
        bench.step();
        assert_eq!(bench.r.pc, 0x00_0001);
    }
    // The check alike: the target is a start of the upper bank.
    let image = [0x4C, 0x01, 0x00, 0xEA, 0xDB];
    assert_eq!(check(&image, &[1, 0, 0, 0, 1], 0xFFFD, 0xFFFD), 0);
    // A byte lower it would be 000001.
    assert_eq!(check(&image, &[1, 0, 0, 0, 1], 0xFFFC, 0xFFFC), 8 << 16);
    // The start that its own bank would name is none of its successors.
    let image = [0xDB, 0x4C, 0xFC, 0xFF];
    assert_eq!(check(&image, &[1, 1, 0, 0], 0xFFFC, 0xFFFC), 8 << 16 | 1);
    let image = [0xDB, 0x4C, 0xFB, 0xFF];
    assert_eq!(check(&image, &[1, 1, 0, 0], 0xFFFB, 0xFFFB), 0);
}

/// The address just after FFFFFF is 000000.
#[test]
fn past_ffffff_is_000000() {
    let mut jump = Bench::at(0xFF_FFFD, &[0x4C, 0x34, 0x12]);
    jump.step();
    assert_eq!(jump.r.pc, 0x00_1234);
    jump.stops(20);
    let image = [0xDB, 0x4C, 0xFC, 0xFF];
    let answer = check(&image, &[1, 1, 0, 0], 0xFF_FFFC, 0xFF_FFFC);
    assert_eq!(answer, 8 << 16 | 1);
    let image = [0xDB, 0x20, 0xFC, 0xFF];
    let answer = check(&image, &[1, 1, 0, 0], 0xFF_FFFC, 0xFF_FFFC);
    assert_eq!(answer, 8 << 16 | 1);
    // A branch back from there is within the image.
    let image = [0xDB, 0x80, 0xFD];
    assert_eq!(check(&image, &[1, 1, 0], 0xFF_FFFD, 0xFF_FFFD), 0);
}

/// Data in the upper bank, by a word over the bank's end.
#[test]
fn image_bytes_are_read_over_a_banks_end() {
    // LDA 00FFFF by absolute long: its own last byte, and the first of bank 1.
    let image = [0xAF, 0xFF, 0xFF, 0x00, 0xDB];
    let mut bench = Bench::at(0x00_FFFC, &image);
    bench.step();
    assert_eq!(bench.r.a, 0xDB00);
    // A store there is 26.
    let image = [0x8F, 0xFF, 0xFF, 0x00, 0xDB];
    Bench::at(0x00_FFFC, &image).stops(26);
}

/// An image of 65,536 bytes runs from its first byte to its last.
#[test]
fn the_longest_image_runs_through() {
    let mut image = vec![0xEA; 65_536];
    image[65_535] = 0xDB;
    for base in [0x00_1000, 0x12_8000, 0x13_0000, 0xFF_0000] {
        let mut bench = Bench::at(base, &image);
        assert_eq!(bench.run(1_000_000), (22, 65_535, 0));
        assert_eq!(bench.r.pc, base + 65_535);
    }
}

/// A bank's end within an instruction, right behind one, and right before one.
#[derive(Default, Debug)]
struct Seen {
    across: u32,
    ended: u32,
    begun: u32,
    jumps: u32,
    calls: u32,
    returns: u32,
}

/// Drawn programs lie across ends of banks, with every sort of instruction at
/// them.
#[test]
fn drawn_programs_lie_across_bank_ends() {
    let mut rng = Rng::new(81);
    let mut seen = Seen::default();
    for _ in 0..20_000 {
        let case = generate::accepted(&mut rng);
        assert_eq!(answer(&case), 0, "{case:02X?}");
        let starts = case.marks.iter().enumerate().filter(|(_, m)| **m != 0);
        let starts: Vec<usize> = starts.map(|(at, _)| at).collect();
        let end = 0x1_0000 - (case.base & 0xFFFF) as usize;
        for (k, &at) in starts.iter().enumerate() {
            let next = starts.get(k + 1).copied().unwrap_or(case.image.len());
            if end >= case.image.len() || next < end || at > end {
                continue;
            }
            let ends_there = (at + 1..=next.min(at + 6)).contains(&end);
            seen.across += (at < end && end < next) as u32;
            seen.ended += (next == end) as u32;
            seen.begun += (at == end) as u32;
            seen.jumps += (ends_there && case.image[at] == 0x4C) as u32;
            seen.calls += (ends_there && case.image[at] == 0x20) as u32;
            seen.returns += (at + 1 == end && case.image[at] == 0x60) as u32;
        }
    }
    let Seen {
        across,
        ended,
        begun,
        jumps,
        calls,
        returns,
    } = seen;
    let most = across.min(ended).min(begun);
    assert!(most > 300 && jumps.min(calls).min(returns) > 10, "{seen:?}");
}

/// Demand 3 over drawn programs: every step begins at a marked start at its
/// widths, and runs end with 0 or 22 to 27. Some go over a bank's end.
#[test]
fn steps_begin_at_marked_starts() {
    let mut rng = Rng::new(82);
    let (mut over, mut ends) = (0, BTreeSet::new());
    for _ in 0..3_000 {
        let program = generate::gentle(&mut rng);
        let case = program.case;
        let mut bench = Bench::at(case.base, &case.image);
        bench.ram = vec![0; program.ram];
        bench.r = Registers {
            s: program.ram as u16 - 1,
            pc: case.reset,
            ..Registers::default()
        };
        for _ in 0..200 {
            let before = bench.r;
            let mark = case.marks[(before.pc - case.base) as usize];
            let widths = before.ps & M != 0 && mark & 2 != 0 || before.ps & M == 0 && mark & 2 == 0;
            assert!(mark & 1 == 1 && widths, "{:06X} {case:02X?}", before.pc);
            assert_eq!(before.ps & X != 0, mark & 4 != 0);
            let (end, ..) = bench.run(1);
            if end != 0 {
                ends.insert(end);
                break;
            }
            over += (before.pc >> 16 != bench.r.pc >> 16) as u32;
        }
    }
    assert!(ends.iter().all(|end| (22..=27).contains(end)), "{ends:?}");
    assert!(ends.contains(&24) && over > 500, "{over}");
}

/// RAM of as many bytes as the base's number, and the image on top of it over
/// two banks.
#[test]
fn ram_and_image_touch() {
    let mut state = Bench::new(&[]).state();
    state[8..10].copy_from_slice(&[0xFF, 0x0F]);
    state[10..12].copy_from_slice(&[0x00, 0x10]);
    let mut ram = vec![0; 4_096];
    let image = vec![0xEA; 65_536];
    let answer = run(&image, 0x1000, &mut state, &mut ram, 65_537);
    assert_eq!(answer, 20 << 8 | 65_536 << 16);
    assert_eq!(Registers::read(&state).pc, 0x1_1000);
}
