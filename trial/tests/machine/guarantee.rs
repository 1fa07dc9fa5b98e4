//! Demand 3 in the harness: what breaks it is found.

use crate::stand_in::{check, run, step};
use sim7700::alu::{M, X};
use sim7700::generate::{CheckCase, RunCase};
use sim7700::state::{Registers, STATE_BYTES};
use trial7700::runs::guarantee::{at_begin, at_end};
use trial7700::runs::lister::Lister;
use trial7700::runs::lists::{List, Turn};
use trial7700::runs::LIST_NUMBERS;
use trial7700::tally::Tally;

/// 01's case 1, begun at an offset with these flags.
fn case_1(offset: u32, ps: u16) -> List {
    let program = CheckCase {
        image: vec![0x49, 0x34, 0x12, 0xF8, 0x49, 0x56, 0xDB],
        marks: vec![0x01, 0, 0, 0x01, 0x03, 0, 0x03],
        base: 0xC000,
        reset: 0xC000,
    };
    let mut first = RunCase {
        image: program.image.clone(),
        base: program.base,
        state: vec![0; STATE_BYTES],
        ram: vec![0; 16],
        fill: (0, 0),
        steps: 0,
    };
    let registers = Registers {
        ps,
        pc: program.base + offset,
        ..Registers::default()
    };
    registers.write(&mut first.state);
    List {
        program,
        first,
        turns: vec![Turn::Asked(0), Turn::Asked(1), Turn::Asked(9)],
    }
}

/// Runs without a difference, and differences.
fn counted(list: &List) -> (u64, u64) {
    let mut tally = Tally::new(&LIST_NUMBERS);
    Lister::new(check, step, run).go_through(list, &mut tally);
    let differences = tally.differences();
    (tally.cases() - differences, differences)
}

#[test]
fn marked_starts_are_kept() {
    for (offset, ps) in [(0, 0), (3, 0), (4, M), (6, M)] {
        assert_eq!(counted(&case_1(offset, ps)), (3, 0), "{offset}");
    }
}

#[test]
fn another_begin_is_found() {
    // Between starts, at other widths, behind the image.
    for (offset, ps) in [(1, 0), (2, M), (0, M), (0, X), (4, 0), (6, M | X), (7, 0)] {
        assert_eq!(counted(&case_1(offset, ps)), (1, 1), "{offset}");
    }
}

#[test]
fn an_image_that_is_not_accepted_is_found() {
    let mut list = case_1(0, 0);
    list.program.marks[6] = 0;
    assert_eq!(counted(&list), (0, 1));
}

#[test]
fn what_is_amiss_is_said() {
    let List { program, first, .. } = case_1(1, M);
    let said = at_begin(&program.marks, &first).unwrap_err();
    assert_eq!(
        said,
        "a step begins at 00C001, marked 00, with m and x (1, 0)"
    );
    // Marks that the check would refuse: a code that is not carried, a cut one.
    for (byte, offset) in [(0x00, 0), (0xAD, 6)] {
        let List { mut first, .. } = case_1(offset, 0);
        first.image[offset as usize] = byte;
        let said = at_begin(&[1; 7], &first).unwrap_err();
        let wanted = format!("the instruction at 00C00{offset} is not carried or not whole");
        assert_eq!(said, wanted);
    }
}

#[test]
fn ends_of_accepted_programs_are_few() {
    let good: Vec<u8> = (0..=255).filter(|&end| at_end(end).is_ok()).collect();
    assert_eq!(good, [0, 22, 23, 24, 25, 26, 27]);
}
