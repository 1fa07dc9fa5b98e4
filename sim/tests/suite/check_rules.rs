//! The check against a second statement of 01's rules: every broken rule of
//! a marking, in no order. The check must accept exactly the markings that
//! break none, and otherwise name the one that 01's order puts first.

use sim7700::check;
use sim7700::generate::{self, Rng};
use std::collections::BTreeSet;

/// A line of the stored listing.
pub struct Line {
    word: String,
    mode: String,
    lengths: [usize; 4],
    carried: bool,
}

pub fn code_map() -> Vec<Line> {
    let line = |text: &str| {
        let f: Vec<&str> = text.split(' ').collect();
        Line {
            word: f[2].to_string(),
            mode: f[4].to_string(),
            lengths: [5, 6, 7, 8].map(|k| f[k].parse().unwrap()),
            carried: f[9] == "yes",
        }
    };
    include_str!("../../data/codemap.txt")
        .lines()
        .map(line)
        .collect()
}

/// A mark taken apart: (m, x), kind, (m, x) at the return.
#[derive(Clone, Copy, PartialEq)]
struct Mark {
    widths: (u8, u8),
    kind: u8,
    at_return: (u8, u8),
}

fn mark(byte: u8) -> Option<Mark> {
    (byte & 1 == 1).then_some(Mark {
        widths: (byte >> 1 & 1, byte >> 2 & 1),
        kind: byte >> 3 & 3,
        at_return: (byte >> 5 & 1, byte >> 6 & 1),
    })
}

fn bad_form(byte: u8) -> bool {
    let fields = mark(byte);
    byte & 0x80 != 0
        || fields.is_none() && byte != 0
        || fields.is_some_and(|f| f.kind == 3)
        || fields.is_some_and(|f| f.kind == 0 && f.at_return != (0, 0))
}

/// Only SEM, CLM, SEP and CLP change the widths, by their fixed bits.
fn widths_after(word: &str, bytes: &[u8], (m, x): (u8, u8)) -> (u8, u8) {
    let bits = bytes.get(1).copied().unwrap_or(0);
    match word {
        "SEM" => (1, x),
        "CLM" => (0, x),
        "SEP" => (m | bits >> 5 & 1, x | bits >> 4 & 1),
        "CLP" => (m & !(bits >> 5) & 1, x & !(bits >> 4) & 1),
        _ => (m, x),
    }
}

pub struct Case<'a> {
    pub map: &'a [Line],
    pub image: &'a [u8],
    pub marks: &'a [u8],
    pub base: u32,
}

impl Case<'_> {
    /// The mark at a 24-bit address, if a start is there.
    fn at(&self, address: i64) -> Option<Mark> {
        let offset = usize::try_from(address - self.base as i64).ok()?;
        mark(*self.marks.get(offset)?)
    }

    /// Where a branch, jump or call goes.
    fn target(&self, mode: &str, bytes: &[u8], next: i64) -> i64 {
        let bank = next % 0x1000000 / 0x10000 * 0x10000;
        let word_at = |k: usize| bytes[k] as i64 | (bytes[k + 1] as i64) << 8;
        match (mode, bytes.len()) {
            ("ABS", 3) => bank + word_at(1),
            ("ABL", 4) => word_at(1) | (bytes[3] as i64) << 16,
            ("REL", 3) => next + word_at(1) - if bytes[2] >= 0x80 { 0x10000 } else { 0 },
            _ => {
                let last = bytes[bytes.len() - 1] as i64;
                next + last - if last >= 0x80 { 0x100 } else { 0 }
            }
        }
    }

    /// What the rules ask of addresses behind the start: each address with
    /// whether the mark there (if any) keeps its rule.
    fn obligations(&self, line: &Line, bytes: &[u8], here: Mark, next: i64) -> Vec<(i64, bool)> {
        let target = self.target(&line.mode, bytes, next);
        let widths = widths_after(&line.word, bytes, here.widths);
        let follows = |address: i64| {
            let wanted = Mark { widths, ..here };
            (address, self.at(address) == Some(wanted))
        };
        match line.word.as_str() {
            "STP" | "WIT" | "RTS" | "RTL" => vec![],
            "BRA" | "JMP" => vec![follows(target)],
            "JSR" => {
                let kind = if line.mode == "ABS" { 1 } else { 2 };
                let entered = self.at(target);
                let enters = entered.is_some_and(|t| t.widths == here.widths && t.kind == kind);
                let resumes = entered.is_some_and(|t| {
                    let wanted = Mark {
                        widths: t.at_return,
                        ..here
                    };
                    self.at(next) == Some(wanted)
                });
                vec![(target, enters), (next, resumes)]
            }
            _ if line.mode.ends_with("REL") => vec![follows(next), follows(target)],
            _ => vec![follows(next)],
        }
    }

    /// The carried code of a start, and its length; else 6 or 5.
    fn code_at(&self, offset: usize, here: Mark) -> Result<(&Line, usize), u8> {
        let first = self.image[offset];
        let (page, behind) = match first {
            0x42 => (1, self.image.get(offset + 1)),
            0x89 => (2, self.image.get(offset + 1)),
            _ => (0, Some(&first)),
        };
        let line = &self.map[page * 256 + *behind.ok_or(6)? as usize];
        let length = line.lengths[(here.widths.0 * 2 + here.widths.1) as usize];
        if line.carried {
            Ok((line, length))
        } else {
            Err(5)
        }
    }

    /// What a start whose instruction is whole asks of addresses behind it.
    pub fn asks(&self, offset: usize) -> Vec<(i64, bool)> {
        let here = mark(self.marks[offset]).unwrap();
        let (line, length) = self.code_at(offset, here).ok().unwrap();
        let end = offset + length;
        let next = self.base as i64 + end as i64;
        self.obligations(line, &self.image[offset..end], here, next)
    }

    /// The addresses that it looks at.
    pub fn looks_at(&self, offset: usize) -> Vec<i64> {
        let asked = self.asks(offset).into_iter();
        asked.map(|(address, _)| address).collect()
    }

    /// The broken rules of the start at an offset.
    fn broken_at(&self, offset: usize, here: Mark) -> Vec<u8> {
        let (line, length) = match self.code_at(offset, here) {
            Ok(code) => code,
            Err(number) => return vec![number],
        };
        let mut broken = vec![];
        if (1..length).any(|k| self.marks.get(offset + k).is_some_and(|b| b & 1 == 1)) {
            broken.push(7);
        }
        if offset + length > self.image.len() {
            broken.push(6);
            return broken;
        }
        let wanted = match line.word.as_str() {
            "RTS" => 1,
            "RTL" => 2,
            _ => here.kind,
        };
        let returns = line.word == "RTS" || line.word == "RTL";
        if returns && (here.kind != wanted || here.widths != here.at_return) {
            broken.push(10);
        }
        let bytes = &self.image[offset..offset + length];
        let next = self.base as i64 + (offset + length) as i64;
        for (address, kept) in self.obligations(line, bytes, here, next) {
            if self.at(address).is_none() {
                broken.push(8);
            } else if !kept {
                broken.push(9);
            }
        }
        broken
    }

    fn broken(&self, reset: u32) -> BTreeSet<(u8, usize)> {
        let mut all = BTreeSet::new();
        for (offset, &byte) in self.marks.iter().enumerate() {
            if bad_form(byte) {
                all.insert((4, offset));
            }
            if let Some(here) = mark(byte) {
                let numbers = self.broken_at(offset, here);
                all.extend(numbers.into_iter().map(|number| (number, offset)));
            }
        }
        let start = Mark {
            widths: (0, 0),
            kind: 0,
            at_return: (0, 0),
        };
        if self.at(reset as i64) != Some(start) {
            all.insert((3, 0));
        }
        all
    }
}

/// The first of the broken rules in 01's order, packed; 0 if there is none.
fn first(broken: &BTreeSet<(u8, usize)>) -> u32 {
    let order = [5, 6, 7, 10, 8, 9];
    let rank = |&&(number, offset): &&(u8, usize)| match number {
        4 => (0, offset, 0),
        3 => (1, 0, 0),
        _ => (2, offset, order.iter().position(|&n| n == number).unwrap()),
    };
    let least = broken.iter().min_by_key(rank);
    least.map_or(0, |&(number, offset)| (number as u32) << 16 | offset as u32)
}

fn agree(map: &[Line], image: &[u8], marks: &[u8], base: u32, reset: u32) -> u32 {
    let case = Case {
        map,
        image,
        marks,
        base,
    };
    let answer = check(image, marks, base, reset);
    let expected = first(&case.broken(reset));
    assert_eq!(
        answer, expected,
        "{image:02X?} {marks:02X?} {base:06X} {reset:06X}"
    );
    answer
}

/// The 37 marks of good form.
pub fn good_marks() -> Vec<u8> {
    (0..=255).filter(|&b| !bad_form(b)).collect()
}

/// Every marking of good form of some images of three bytes.
#[test]
fn all_markings_of_three_bytes() {
    let map = code_map();
    let good = good_marks();
    assert_eq!(good.len(), 37);
    // Each image with whether it has an accepted marking at all.
    let images = [
        ([0xF8, 0xD8, 0xDB], true),
        ([0xA9, 0xA2, 0xDB], false),
        ([0x80, 0xFE, 0xCB], true),
        ([0xE2, 0x30, 0xDB], true),
        ([0xF0, 0xFE, 0xDB], true),
        ([0x20, 0x00, 0xC0], false),
        ([0xDB, 0x60, 0x6B], true),
        ([0x42, 0x48, 0xDB], true),
    ];
    for (image, acceptable) in images {
        let mut accepted = 0;
        for &a in &good {
            for &b in &good {
                for &c in &good {
                    accepted += (agree(&map, &image, &[a, b, c], 0xC000, 0xC000) == 0) as u32;
                }
            }
        }
        assert_eq!(accepted > 0, acceptable, "{image:02X?}");
    }
}

/// Every mark byte at each place of case 1 and case 6.
#[test]
fn every_mark_byte_at_each_place() {
    let map = code_map();
    let case_1 = (
        [0x49, 0x34, 0x12, 0xF8, 0x49, 0x56, 0xDB],
        [1, 0, 0, 1, 3, 0, 3],
    );
    for place in 0..7 {
        for byte in 0..=255 {
            let mut marks = case_1.1;
            marks[place] = byte;
            agree(&map, &case_1.0, &marks, 0xC000, 0xC000);
        }
    }
    for place in 0..5 {
        for byte in 0..=255 {
            let mut marks = [1, 0, 0, 1, 9];
            marks[place] = byte;
            agree(&map, &[0x20, 4, 0xC0, 0xDB, 0x60], &marks, 0xC000, 0xC000);
        }
    }
}

/// Drawn images from a small alphabet with drawn marks.
#[test]
fn drawn_small_markings() {
    let map = code_map();
    let good = good_marks();
    let alphabet = [
        0xEA, 0xF8, 0xD8, 0xE2, 0xC2, 0x20, 0x22, 0x60, 0x6B, 0x80, 0x82, 0xF0, 0xA9, 0xA2, 0xDB,
        0x42, 0x89, 0x00, 0x4C, 0x5C, 0x24, 0x2C, 0x28, 0xC0, 0x30, 0xFE, 0x01, 0x03, 0x48, 0x49,
    ];
    let mut rng = Rng::new(7700);
    let mut seen = BTreeSet::new();
    for _ in 0..300_000 {
        let length = 1 + rng.below(9) as usize;
        let image: Vec<u8> = (0..length).map(|_| *rng.pick(&alphabet)).collect();
        let few = [1, *rng.pick(&good), *rng.pick(&good)];
        let mut marks: Vec<u8> = (0..length)
            .map(|_| if rng.chance(1, 2) { 0 } else { *rng.pick(&few) })
            .collect();
        if rng.chance(9, 10) {
            marks[0] = 1;
        }
        if rng.chance(1, 20) {
            marks[rng.below(length as u64) as usize] = rng.byte();
        }
        let base = *rng.pick(&[0xC000, 0, 0x12FFF0, 0x12FFFE, 0xFFFD, 0xFFFFF0]);
        let reset = base + rng.below(2) as u32;
        seen.insert(agree(&map, &image, &marks, base, reset) >> 16);
    }
    assert_eq!(seen, BTreeSet::from([0, 3, 4, 5, 6, 7, 8, 9, 10]));
}

/// Programs around the ends of banks, whole and changed.
#[test]
fn cases_around_bank_ends() {
    let map = code_map();
    let mut seen = BTreeSet::new();
    for case in generate::bank_checks() {
        let answer = agree(&map, &case.image, &case.marks, case.base, case.reset);
        seen.insert(answer >> 16);
    }
    assert_eq!(seen, BTreeSet::from([0, 3, 8, 9]));
}

/// The generator's cases, where their lengths are good.
#[test]
fn generated_cases() {
    let map = code_map();
    let mut rng = Rng::new(1);
    for _ in 0..30_000 {
        let case = generate::check_case(&mut rng);
        let answer = check(&case.image, &case.marks, case.base, case.reset);
        if answer >> 16 != 1 && answer >> 16 != 2 && case.image.len() < 2000 {
            agree(&map, &case.image, &case.marks, case.base, case.reset);
        }
    }
}
