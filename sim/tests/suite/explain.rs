//! The line that explains a refusal: hand-made ones, and a second writing of
//! drawn ones, where a mark that must stand is found by trying all marks.

use crate::check_rules::{code_map, good_marks, Case, Line};
use crate::print::words;
use sim7700::codes::{entry_of, page_of};
use sim7700::generate::{self, case_of, CheckCase, Rng};
use sim7700::{check, explain, LINE_BYTES};
use std::collections::{BTreeMap, BTreeSet};

/// The line of a case, with its 0A.
fn line(case: &CheckCase) -> String {
    let mut page = [0x55; 100];
    let CheckCase { image, marks, .. } = case;
    let answer = explain(image, marks, case.base, case.reset, &mut page);
    let length = (answer >> 8) as usize;
    assert_eq!(answer & 0xFF, 0);
    assert!(page[length..].iter().all(|&b| b == 0x55));
    String::from_utf8(page[..length].to_vec()).unwrap()
}

/// The check's number and offset.
fn verdict(case: &CheckCase) -> (usize, usize) {
    let answer = check(&case.image, &case.marks, case.base, case.reset) as usize;
    (answer >> 16, answer & 0xFFFF)
}

/// Each cause has its line; every number stands several times.
#[test]
fn hand_made_lines() {
    let mut seen = BTreeMap::new();
    for row in generate::explained() {
        let case = case_of(row);
        assert_eq!(line(&case), format!("{}\n", row.4));
        *seen.entry(verdict(&case).0).or_insert(0) += 1;
    }
    assert!((0..=10).all(|number| seen[&number] > 2), "{seen:?}");
}

/// Words of the numbers.
const WORDS: [&str; 11] = [
    "", "length", "base", "reset", "mark", "code", "cut off", "overlap", "flow", "widths", "return",
];

/// The fields of a mark, one by one.
fn fields(mark: u8) -> [&'static str; 5] {
    let bit = |place: u8| ["0", "1"][(mark >> place & 1) as usize];
    let kind = ["N", "S", "L"][(mark >> 3 & 3) as usize];
    [bit(1), bit(2), kind, bit(5), bit(6)]
}

/// Which part of a mark is not of the form.
fn part(mark: u8) -> &'static str {
    let parts = [
        (mark % 2 == 0, "bits without a start"),
        (mark > 0x7F, "bit 7"),
        (mark / 8 % 4 == 3, "kind 3"),
        (mark / 32 > 0, "return widths of kind N"),
    ];
    parts.iter().find(|part| part.0).unwrap().1
}

/// What the second writing goes by.
struct Second {
    map: Vec<Line>,
    words: BTreeMap<(usize, u8), String>,
}

impl Second {
    fn new() -> Second {
        Second {
            map: code_map(),
            words: words(),
        }
    }

    fn line(&self, case: &CheckCase) -> String {
        let (number, at) = verdict(case);
        let (image, marks) = (case.image.len(), case.marks.len());
        let said = match number {
            0 => return "accepted\n".to_string(),
            1 => format!("image {image}, marks {marks}"),
            2 => format!("{:08X}, length {image}", case.base),
            3 => {
                let found = found(case, case.reset as usize);
                format!("{:08X} must be 0 0 N 0 0, is {found}", case.reset)
            }
            4 => {
                let (address, mark) = (case.base as usize + at, case.marks[at]);
                format!("{address:06X} has {mark:02X}: {}", part(mark))
            }
            _ => self.start(case, number, at),
        };
        format!("{number} {}: {said}\n", WORDS[number])
    }

    /// 5 to 10: the start, then what is wrong with it.
    fn start(&self, case: &CheckCase, number: usize, at: usize) -> String {
        let (page, left) = (page_of(case.image[at]), &case.image[at..]);
        let head = |count: usize, word: &str| {
            let pairs = left[..count].iter().map(|byte| format!("{byte:02X} "));
            let address = case.base as usize + at;
            let said = format!("{address:06X} {}{word}", pairs.collect::<String>());
            said.trim_end().to_string()
        };
        let Some(&code) = left.get((page > 0) as usize) else {
            return format!("{}: the code is missing", head(1, ""));
        };
        let none = "---".to_string();
        let word = self.words.get(&(page, code)).unwrap_or(&none);
        if number == 5 {
            return format!("{}: not carried", head(1 + (page > 0) as usize, word));
        }
        let mark = case.marks[at];
        let length = entry_of(page, code).length(mark & 2 != 0, mark & 4 != 0);
        let start = head(length.min(left.len()), word);
        let said = match number {
            6 => format!("{} missing", length - left.len()),
            7 => {
                let inside = (at + 1..).find(|&k| case.marks[k] % 2 == 1).unwrap();
                format!("{:06X} starts inside it", case.base as usize + inside)
            }
            10 => {
                let [m, x, kind, return_m, return_x] = fields(mark);
                // RTS is of kind S, RTL of kind L.
                let own = &word[2..];
                format!("returns {own} {m} {x}, is marked {kind} {return_m} {return_x}")
            }
            _ => self.asked(case, number, at),
        };
        format!("{start}: {said}")
    }

    /// 8 and 9: the first of the addresses asked for that has no start, or
    /// whose mark breaks its rule.
    fn asked(&self, case: &CheckCase, number: usize, at: usize) -> String {
        let asked = self.case(case, &case.marks).asks(at);
        let broken = |&(address, kept): &(i64, bool)| match number {
            8 => is_no_start(case, wrapped(address)),
            _ => !kept,
        };
        let first = asked.iter().position(broken).unwrap();
        let address = wrapped(asked[first].0);
        let is = found(case, address);
        if number == 8 {
            return format!("{address:06X} is {is}");
        }
        let must = self.must(case, at, first);
        format!("{address:06X} must be {must}, is {is}")
    }

    fn case<'a>(&'a self, case: &'a CheckCase, marks: &'a [u8]) -> Case<'a> {
        Case {
            map: &self.map,
            image: &case.image,
            marks,
            base: case.base,
        }
    }

    /// The mark that must stand at an address that a start asks for: what those
    /// have in common that keep the rule when they are put there.
    fn must(&self, case: &CheckCase, at: usize, asked: usize) -> String {
        let address = self.case(case, &case.marks).asks(at)[asked].0;
        let offset = (address - case.base as i64) as usize;
        let keeps = |&mark: &u8| {
            let mut marks = case.marks.clone();
            marks[offset] = mark;
            self.case(case, &marks).asks(at)[asked].1
        };
        let kept: Vec<u8> = good_marks().into_iter().filter(keeps).collect();
        let mut must = fields(kept[0]);
        for mark in &kept {
            for (field, other) in must.iter_mut().zip(fields(*mark)) {
                if *field != other {
                    *field = "-";
                }
            }
        }
        // All that agree in the other fields keep it.
        let free = must.iter().filter(|&&field| field == "-").count();
        assert_eq!(kept.len(), 1 << free);
        must.join(" ")
    }
}

fn wrapped(address: i64) -> usize {
    address.rem_euclid(0x100_0000) as usize
}

fn is_no_start(case: &CheckCase, address: usize) -> bool {
    let offset = address.wrapping_sub(case.base as usize);
    case.marks.get(offset).is_none_or(|mark| mark % 2 == 0)
}

/// What is found at an address.
fn found(case: &CheckCase, address: usize) -> String {
    let offset = address.wrapping_sub(case.base as usize);
    match case.marks.get(offset) {
        None => "outside the image".to_string(),
        Some(mark) if mark % 2 == 0 => "no start".to_string(),
        Some(&mark) => fields(mark).join(" "),
    }
}

/// A call of itself, or of the address after it: another mark there changes
/// what must stand there.
fn hangs_on_itself(case: &CheckCase) -> bool {
    let (number, at) = verdict(case);
    number == 9 && {
        let here = case.base as usize + at;
        match case.image[at..] {
            [0x20, low, high, ..] => {
                let target = (here + 3) & 0xFF_0000 | (high as usize) << 8 | low as usize;
                target == here || target == here + 3
            }
            [0x22, low, high, bank, ..] => {
                let target = (bank as usize) << 16 | (high as usize) << 8 | low as usize;
                target == here || target == here + 4
            }
            _ => false,
        }
    }
}

/// Compares the line with its second writing, and returns the number.
fn agree(second: &Second, case: &CheckCase) -> usize {
    let line = line(case);
    assert!(line.len() <= LINE_BYTES);
    if !hangs_on_itself(case) {
        assert_eq!(line, second.line(case), "{case:02X?}");
    }
    verdict(case).0
}

#[test]
fn drawn_cases_agree_with_a_second_writing() {
    let second = Second::new();
    let mut rng = Rng::new(39);
    let mut seen = BTreeSet::new();
    for _ in 0..20_000 {
        let case = generate::check_case(&mut rng);
        if case.image.len() < 2_000 {
            seen.insert(agree(&second, &case));
        }
    }
    assert_eq!(seen, (0..=10).collect());
    for number in 0..=10 {
        for _ in 0..300 {
            let case = generate::explain_by(&mut rng, number).checked;
            assert_eq!(agree(&second, &case), number as usize);
        }
    }
}

/// Short images of codes that ask for marks, with drawn marks.
#[test]
fn drawn_small_markings() {
    let second = Second::new();
    let good = good_marks();
    let alphabet = [
        0xEA, 0xF8, 0xD8, 0xE2, 0xC2, 0x20, 0x22, 0x60, 0x6B, 0x80, 0x82, 0xF0, 0xA9, 0xA2, 0xDB,
        0x42, 0x89, 0x00, 0x4C, 0x5C, 0x24, 0x2C, 0x28, 0xC0, 0x30, 0xFE, 0xFF, 0x01, 0x03, 0x12,
    ];
    let mut rng = Rng::new(77);
    let mut seen = BTreeMap::new();
    for _ in 0..100_000 {
        let length = 1 + rng.index(9);
        let few = [1, *rng.pick(&good), *rng.pick(&good)];
        let mut case = CheckCase {
            image: (0..length).map(|_| *rng.pick(&alphabet)).collect(),
            marks: (0..length).map(|_| *rng.pick(&few)).collect(),
            base: *rng.pick(&[
                0xC000,
                0,
                0x12_FFFE,
                0x12_FFFD,
                0xFFFD,
                0x100_0000 - length as u32,
            ]),
            reset: 0,
        };
        for mark in case.marks.iter_mut().filter(|_| rng.chance(1, 2)) {
            *mark = 0;
        }
        case.marks[0] = 1;
        case.reset = case.base;
        *seen.entry(agree(&second, &case)).or_insert(0) += 1;
    }
    let often = [0, 5, 6, 7, 8, 9, 10];
    assert!(often.iter().all(|number| seen[number] > 300), "{seen:?}");
}

/// Programs around the ends of banks, and each carried code up to FFFFFF.
#[test]
fn lines_at_the_ends_of_banks() {
    let second = Second::new();
    let mut numbers = BTreeSet::new();
    for case in generate::bank_explains() {
        numbers.insert(agree(&second, &case.checked));
    }
    assert!(numbers.is_superset(&[0, 3, 8, 9, 10].into()), "{numbers:?}");
    let mut numbers = BTreeMap::new();
    for case in generate::last_codes(&mut Rng::new(1)) {
        *numbers.entry(agree(&second, &case.checked)).or_insert(0) += 1;
    }
    assert_eq!(numbers.values().sum::<u32>(), 380);
    assert!(numbers[&6] > 100 && numbers[&8] > 100, "{numbers:?}");
}

#[test]
fn every_mark() {
    let second = Second::new();
    let mut numbers = BTreeMap::new();
    for mark in 0..=255 {
        let case = CheckCase {
            image: vec![0xDB, 0xDB],
            marks: vec![1, mark],
            base: 0x12_FFFF,
            reset: 0x12_FFFF,
        };
        *numbers.entry(agree(&second, &case)).or_insert(0) += 1;
    }
    assert_eq!(numbers, [(0, 37), (4, 219)].into());
}

/// Words of the instructions that are not carried, and in how many codes.
const NOT_CARRIED: [(&str, u32); 15] = [
    ("BRK", 1),
    ("RTI", 1),
    ("PLP", 1),
    ("PSH", 1),
    ("PUL", 1),
    ("MVN", 1),
    ("MVP", 1),
    ("MPY", 13),
    ("MPYL", 2),
    ("DIV", 13),
    ("DIVL", 2),
    ("JMP", 2),
    ("JMPL", 1),
    ("JSR", 1),
    // 02, 121 codes behind 42 and 223 behind 89.
    ("---", 345),
];

#[test]
fn every_code_that_is_not_carried() {
    let second = Second::new();
    let mut words = BTreeMap::new();
    for prefix in [&[][..], &[0x42], &[0x89]] {
        // A prefix alone leads to the other pages.
        for code in (0..=255).filter(|code| !prefix.is_empty() || page_of(*code) == 0) {
            let case = CheckCase {
                image: [prefix, &[code, 0, 0, 0, 0, 0]].concat(),
                marks: [vec![1], vec![0; prefix.len() + 5]].concat(),
                base: 0xC000,
                reset: 0xC000,
            };
            if agree(&second, &case) == 5 {
                let line = line(&case);
                let (start, _) = line.rsplit_once(':').unwrap();
                let (_, word) = start.rsplit_once(' ').unwrap();
                *words.entry(word.to_string()).or_insert(0) += 1;
            }
        }
    }
    let expected = NOT_CARRIED.map(|(word, codes)| (word.to_string(), codes));
    assert_eq!(words, expected.into());
    let alone = generate::uncarried_codes();
    assert_eq!(alone.len(), words.values().sum::<u32>() as usize);
    for case in alone {
        assert_eq!(agree(&second, &case.checked), 5);
    }
}

/// All good marks at an instruction that asks for two marks, at both of them.
#[test]
fn every_marking_of_two_successors() {
    let second = Second::new();
    let good = good_marks();
    let images: [&[u8]; 4] = [
        &[0xDB, 0xF0, 0x01, 0xDB, 0xDB],
        &[0xDB, 0x20, 0x05, 0xC0, 0xDB, 0xDB],
        &[0xDB, 0x22, 0x06, 0xC0, 0x00, 0xDB, 0xDB],
        &[0xDB, 0x4C, 0x05, 0xC0, 0xDB, 0xDB],
    ];
    for image in images {
        let mut case = CheckCase {
            image: image.to_vec(),
            marks: vec![0; image.len()],
            base: 0xC000,
            reset: 0xC000,
        };
        case.marks[0] = 1;
        let last = image.len() - 1;
        for caller in [0x01, 0x07, 0x29, 0x75] {
            for &after in &good {
                for &target in &good {
                    case.marks[1] = caller;
                    (case.marks[last - 1], case.marks[last]) = (after, target);
                    agree(&second, &case);
                }
            }
        }
    }
}

/// What is said of a call's target and of the address after it, each given with
/// its mark, if one of them is wrong.
fn said_of_a_call(
    (kind, caller): (&str, u8),
    (target, entered): (u32, u8),
    (next, after): (u32, u8),
) -> Option<String> {
    let [m, x, own, return_m, return_x] = fields(caller);
    let [entered_m, entered_x, entered_kind, back_m, back_x] = fields(entered);
    if [entered_m, entered_x, entered_kind] != [m, x, kind] {
        let is = fields(entered).join(" ");
        return Some(format!("{target:06X} must be {m} {x} {kind} - -, is {is}"));
    }
    let must = [back_m, back_x, own, return_m, return_x].join(" ");
    let is = fields(after).join(" ");
    (must != is).then(|| format!("{next:06X} must be {must}, is {is}"))
}

/// A call of itself, and one of the address after it, with each mark at both of
/// them: what must stand there follows from the marks as they are.
#[test]
fn calls_that_hang_on_themselves() {
    let good: Vec<u8> = good_marks().into_iter().filter(|&mark| mark != 0).collect();
    for (code, kind, length) in [(0x20, "S", 3), (0x22, "L", 4)] {
        let (call, next) = (0xC001u32, 0xC001 + length as u32);
        for target in [call, next] {
            let operand = &target.to_le_bytes()[..length - 1];
            let mut case = CheckCase {
                image: [&[0xDB, code], operand, &[0xDB]].concat(),
                marks: [vec![1], vec![0; length + 1]].concat(),
                base: 0xC000,
                reset: 0xC000,
            };
            for k in 0..good.len() * good.len() {
                let (caller, after) = (good[k % good.len()], good[k / good.len()]);
                (case.marks[1], case.marks[1 + length]) = (caller, after);
                let entered = if target == call { caller } else { after };
                let said = said_of_a_call((kind, caller), (target, entered), (next, after));
                let said = said.unwrap_or("accepted".to_string());
                assert!(line(&case).ends_with(&format!("{said}\n")), "{case:02X?}");
            }
        }
    }
}

/// 15 a byte short, with nothing written and nothing above the number; past the
/// line all stays.
#[test]
fn pages_short_exact_and_long() {
    let mut lengths = BTreeSet::new();
    for row in generate::explained() {
        let CheckCase {
            image,
            marks,
            base,
            reset,
        } = case_of(row);
        let exact = row.4.len() + 1;
        lengths.insert(exact);
        for length in 0..=exact + 3 {
            let mut page = vec![0x55; length];
            let answer = explain(&image, &marks, base, reset, &mut page);
            if length < exact {
                assert_eq!(answer, 15);
                assert!(page.iter().all(|&b| b == 0x55), "{length}");
            } else {
                assert_eq!(answer, (exact as u64) << 8);
                assert_eq!(&page[..exact], format!("{}\n", row.4).as_bytes());
                assert!(page[exact..].iter().all(|&b| b == 0x55), "{length}");
            }
        }
    }
    assert_eq!(lengths.last(), Some(&LINE_BYTES));
    assert_eq!(lengths.first(), Some(&9));
}

/// NOPs of this length, each a start.
fn nops(length: usize, base: u32) -> CheckCase {
    CheckCase {
        image: vec![0xEA; length],
        marks: vec![1; length],
        base,
        reset: base,
    }
}

/// The longest image, refused at its last byte; a byte more; past FFFFFF.
#[test]
fn the_longest_image() {
    let mut case = nops(65_536, 0xFF_0000);
    assert_eq!(
        line(&case),
        "8 flow: FFFFFF EA NOP: 000000 is outside the image\n"
    );
    case.image[65_535] = 0;
    assert_eq!(line(&case), "5 code: FFFFFF 00 BRK: not carried\n");
    case.marks[65_535] = 0x5F;
    assert_eq!(line(&case), "4 mark: FFFFFF has 5F: kind 3\n");
    case.marks[65_535] = 5;
    assert_eq!(
        line(&case),
        "9 widths: FFFFFE EA NOP: FFFFFF must be 0 0 N 0 0, is 0 1 N 0 0\n"
    );
    case.base += 1;
    assert_eq!(line(&case), "2 base: 00FF0001, length 65536\n");
    case = nops(65_537, 0x8000);
    assert_eq!(line(&case), "1 length: image 65537, marks 65537\n");
    case.image.pop();
    assert_eq!(line(&case), "1 length: image 65536, marks 65537\n");
    case.marks.pop();
    assert_eq!(
        line(&case),
        "8 flow: 017FFF EA NOP: 018000 is outside the image\n"
    );
}
