//! Images to be explained, mostly refused ones, with pages of all lengths.

use super::places::codes_that;
use super::prints::broken;
use super::{bank_checks, bank_programs, check_case, CheckCase, Rng};
use crate::codes::{entry_of, page_of, PREFIX_42, PREFIX_89};
use crate::marks::{is_start, M, START, X};
use crate::numbers::*;
use crate::{check, explain, LINE_BYTES};

/// What leads to each code page.
const PREFIXES: [&[u8]; 3] = [&[], &[PREFIX_42], &[PREFIX_89]];

/// Arguments of an explanation; the page has a length only.
#[derive(Clone, PartialEq, Eq, Debug)]
pub struct ExplainCase {
    pub checked: CheckCase,
    pub page_len: usize,
}

impl ExplainCase {
    /// With a page that the line just fills.
    pub fn exact(checked: CheckCase) -> ExplainCase {
        let page_len = LINE_BYTES;
        let mut case = ExplainCase { checked, page_len };
        case.page_len = (case.answer().0 >> 8) as usize;
        case
    }

    /// The answer and the page after it, all A5 before.
    pub fn answer(&self) -> (u64, Vec<u8>) {
        let mut page = vec![0xA5; self.page_len];
        let case = &self.checked;
        let answer = explain(&case.image, &case.marks, case.base, case.reset, &mut page);
        (answer, page)
    }

    /// 15, or else the number that the line explains: 0 where the image is
    /// accepted.
    pub fn number(&self) -> u8 {
        let case = &self.checked;
        match self.answer().0 as u8 {
            0 => (check(&case.image, &case.marks, case.base, case.reset) >> 16) as u8,
            number => number,
        }
    }
}

/// A case of the check with a page that is exact, short or long.
pub fn explain_case(rng: &mut Rng) -> ExplainCase {
    let mut case = ExplainCase::exact(check_case(rng));
    let exact = case.page_len;
    case.page_len = match rng.below(8) {
        0..=2 => exact,
        3 => exact - 1,
        4 => rng.index(exact),
        5 => LINE_BYTES,
        _ => exact + rng.index(80),
    };
    case
}

/// A case with this number: 0 to 10 or 15. Half of the refused ones break
/// another rule too, which is tested later.
pub fn explain_by(rng: &mut Rng, number: u8) -> ExplainCase {
    loop {
        let case = aimed(rng, number);
        if case.number() == number {
            return case;
        }
    }
}

fn aimed(rng: &mut Rng, number: u8) -> ExplainCase {
    let rule = match number {
        PAGE => rng.below(RETURN as u64 + 1) as u8,
        _ => number,
    };
    let mut case = ExplainCase::exact(broken(rng, rule));
    let exact = case.page_len;
    case.page_len = match number {
        PAGE => exact - *rng.pick(&[1, 1, 2, 9, exact / 2, exact]).min(&exact),
        _ => exact + *rng.pick(&[0, 0, 1, 2, 80]),
    };
    case
}

/// Programs around the ends of banks: each start taken away, and each at the
/// other m; and what can't be the last instruction up to FFFFFF.
pub fn bank_explains() -> Vec<ExplainCase> {
    let mut cases = Vec::new();
    for program in bank_programs() {
        for at in (0..program.marks.len()).filter(|&at| is_start(program.marks[at])) {
            for mark in [0, program.marks[at] ^ M] {
                let mut changed = program.clone();
                changed.marks[at] = mark;
                cases.push(changed);
            }
        }
    }
    let last = |case: &CheckCase| case.base + case.image.len() as u32 > MAX_ADDRESS;
    cases.extend(bank_checks().into_iter().filter(last));
    cases.into_iter().map(ExplainCase::exact).collect()
}

/// Each carried code as the last instruction up to FFFFFF, at one of the pairs
/// of widths: whole, or two times out of five without its last byte.
pub fn last_codes(rng: &mut Rng) -> Vec<ExplainCase> {
    let carried = codes_that(|entry| entry.carried).into_iter();
    let last = |(k, code): (usize, (usize, u8))| {
        let widths = [0, M, X, M | X][k % 4];
        let mut case = last_code(rng, code, widths);
        if k % 5 < 2 && case.image.len() > 3 {
            case.image.pop();
            case.marks.pop();
        }
        case.base = MAX_ADDRESS + 1 - case.image.len() as u32;
        case.reset = case.base;
        ExplainCase::exact(case)
    };
    carried.enumerate().map(last).collect()
}

/// SEP to these widths, then the code with a drawn operand.
fn last_code(rng: &mut Rng, (page, code): (usize, u8), widths: u8) -> CheckCase {
    let (m, x) = (widths & M != 0, widths & X != 0);
    let named = (m as u8) << 5 | (x as u8) << 4;
    let mut image = [&[0xE2, named], PREFIXES[page], &[code]].concat();
    let length = 2 + entry_of(page, code).length(m, x);
    image.resize_with(length, || rng.edge_byte());
    let mut marks = vec![0; length];
    (marks[0], marks[2]) = (START, START | widths);
    CheckCase {
        image,
        marks,
        base: 0,
        reset: 0,
    }
}

/// Each code that is not carried, alone.
pub fn uncarried_codes() -> Vec<ExplainCase> {
    let uncarried = codes_that(|entry| !entry.carried).into_iter();
    // A prefix alone is no code yet.
    let whole = uncarried.filter(|&(page, code)| page > 0 || page_of(code) == 0);
    let alone = |(page, code): (usize, u8)| {
        let image = [PREFIXES[page], &[code]].concat();
        let marks = [START, 0][..image.len()].to_vec();
        ExplainCase::exact(CheckCase {
            image,
            marks,
            base: 0xC000,
            reset: 0xC000,
        })
    };
    whole.map(alone).collect()
}
