//! Marks worked out from a routine list (02, R-6): 14, 1, 2, 17.

use crate::check_rules::{code_map, Case};
use sim7700::generate::{self, start_line, BuildCase, CheckCase, Rng};
use sim7700::{build_marks, check};
use std::collections::BTreeSet;

/// Marks before a call.
const BEFORE: u8 = 0x5A;

/// The lines of routines in an image at a base.
fn lines(base: u32, routines: &[(u32, u8)]) -> String {
    let line = |&(at, mark): &(u32, u8)| start_line(base + at, mark);
    routines.iter().map(line).collect()
}

/// The answer and the marks, as many as the image has bytes.
fn build(image: &[u8], base: u32, reset: u32, text: &str) -> (u64, Vec<u8>) {
    let mut marks = vec![BEFORE; image.len()];
    let answer = build_marks(image, base, reset, text.as_bytes(), &mut marks);
    (answer, marks)
}

/// A refusal with this number, which leaves the marks.
fn refused(number: u64, image: &[u8], base: u32, reset: u32, text: &str) {
    let (answer, marks) = build(image, base, reset, text);
    assert_eq!(
        answer, number,
        "{image:02X?} {base:06X} {reset:06X} {text:?}"
    );
    assert!(marks.iter().all(|&m| m == BEFORE), "{image:02X?} {text:?}");
}

#[test]
fn hand_made_cases() {
    for made in generate::hand_made() {
        let case = made.case();
        let after = match made.least {
            Some(least) => (0, least.to_vec()),
            None => (17, case.marks.clone()),
        };
        assert_eq!(case.answer(), after, "{made:02X?}");
    }
}

/// A list is text: 01's line form with its tabs, and no first line.
#[test]
fn lists_are_in_01s_line_form() {
    let image = [
        0xEA, 0xEA, 0x20, 0x0A, 0xC0, 0x22, 0x0B, 0xC0, 0x12, 0xDB, 0x60, 0x6B,
    ];
    let text = "12C00A\t0\t0\tS\t0\t0\n12C00B\t0\t0\tL\t0\t0\n";
    let least = vec![1, 1, 1, 0, 0, 1, 0, 0, 0, 1, 0x09, 0x11];
    let built = (0, least);
    assert_eq!(build(&image, 0x12_C000, 0x12_C000, text), built);
    let old = text.replace("12C", "C");
    assert_eq!(build(&image, 0x12_C000, 0x12_C000, &old), built);
    // Each field has its bit.
    let image = [0xDB; 8];
    let text = "7F0101\t1\t0\tN\t0\t0\n7F0102\t0\t1\tN\t0\t0\n7F0103\t0\t0\tS\t0\t0\n\
7F0104\t0\t0\tL\t0\t0\n7F0105\t0\t0\tS\t1\t0\n7F0106\t0\t0\tL\t0\t1\n7F0107\t1\t1\tL\t1\t1\n";
    let built = (0, vec![0x01, 0x03, 0x05, 0x09, 0x11, 0x29, 0x51, 0x77]);
    assert_eq!(build(&image, 0x7F_0100, 0x7F_0100, text), built);
    let old = text.replace("7F", "");
    assert_eq!(build(&image, 0x7F_0100, 0x7F_0100, &old), built);
}

/// The marks are filled whole, whatever they hold; so nothing is taken from
/// them.
#[test]
fn marks_are_filled_whole() {
    for before in 0..=255 {
        let mut marks = [before; 6];
        let image = [0x80, 0x02, 0xEA, 0xEA, 0xDB, 0xEA];
        assert_eq!(build_marks(&image, 0xC000, 0xC000, b"", &mut marks), 0);
        assert_eq!(marks, [1, 0, 0, 0, 1, 0]);
    }
}

/// A second reader of routine lists: whole addresses and marks, if the text is
/// one; those in four digits lie in the base's bank.
pub fn listed(text: &[u8], base: u32) -> Option<Vec<(u32, u8)>> {
    let text = std::str::from_utf8(text).ok()?;
    let digits = text.find('\t').unwrap_or(6);
    let bank = if digits == 4 { base >> 16 } else { 0 };
    let mut routines: Vec<(u32, u8)> = Vec::new();
    for line in text.split_inclusive('\n') {
        let fields: Vec<&str> = line.strip_suffix('\n')?.split('\t').collect();
        let [address, m, x, kind, return_m, return_x] = fields[..] else {
            return None;
        };
        let is_digit = |c: char| c.is_ascii_digit() || ('A'..='F').contains(&c);
        if ![4, 6].contains(&digits) || address.len() != digits || !address.chars().all(is_digit) {
            return None;
        }
        let bit = |field: &str| ["0", "1"].iter().position(|b| *b == field);
        let kind = ["N", "S", "L"].iter().position(|k| *k == kind)?;
        let (return_m, return_x) = (bit(return_m)?, bit(return_x)?);
        if kind == 0 && return_m + return_x > 0 {
            return None;
        }
        let mark = 1 + 2 * bit(m)? + 4 * bit(x)? + 8 * kind + 32 * return_m + 64 * return_x;
        let address = u32::from_str_radix(address, 16).ok()? + (bank << 16);
        if routines.last().is_some_and(|last| last.0 >= address) {
            return None;
        }
        routines.push((address, mark as u8));
    }
    Some(routines)
}

/// In an image of STP a routine may stand on each byte but the reset's.
fn agrees_on_text(text: &[u8]) -> u64 {
    let (base, length) = (0x12_C0F8, 32);
    let mut marks = vec![BEFORE; length];
    let answer = build_marks(&[0xDB; 32], base, 0x12_C0FF, text, &mut marks);
    let mut least = vec![0; length];
    least[7] = 1;
    let fits = |&(address, mark): &(u32, u8)| {
        let inside = (base..base + 32).contains(&address);
        inside && (address != 0x12_C0FF || mark == 1)
    };
    let expected = match listed(text, base) {
        None => 14,
        Some(routines) if !routines.iter().all(fits) => 17,
        Some(routines) => {
            for (address, mark) in routines {
                least[(address - base) as usize] = mark;
            }
            0
        }
    };
    assert_eq!(answer, expected, "{}", text.escape_ascii());
    let after = if expected == 0 {
        least
    } else {
        vec![BEFORE; length]
    };
    assert_eq!(marks, after, "{}", text.escape_ascii());
    answer
}

/// Each byte of a list replaced by each other, each byte put in at each
/// place, a byte left out, the text cut off and begun there; in six digits and
/// in four.
#[test]
fn a_list_damaged_everywhere() {
    let whole = lines(0x12_C0F8, &[(1, 0x01), (7, 0x01), (8, 0x2F), (31, 0x71)]);
    let old = whole.replace("12C", "C");
    damaged_everywhere(whole.as_bytes());
    damaged_everywhere(old.as_bytes());
}

fn damaged_everywhere(text: &[u8]) {
    let mut seen = BTreeSet::new();
    for at in 0..=text.len() {
        let (front, rest) = text.split_at(at);
        let behind = rest.get(1..).unwrap_or_default();
        for byte in 0..=255 {
            seen.insert(agrees_on_text(&[front, &[byte], behind].concat()));
            seen.insert(agrees_on_text(&[front, &[byte], rest].concat()));
        }
        for text in [&[front, behind].concat()[..], front, rest] {
            seen.insert(agrees_on_text(text));
        }
    }
    assert_eq!(seen, BTreeSet::from([0, 14, 17]));
}

/// Lines that are not quite in form, before a good one, between and behind, in
/// four digits and in six.
#[test]
fn malformed_lines_are_14() {
    let good = ["C0FA\t0\t0\tN\t0\t0\n", "C110\t1\t0\tS\t0\t1\n"];
    let whole = |text: String| text.replace("C0FA", "12C0FA").replace("C1", "12C1");
    let old = |text: String| text;
    for written in [whole as fn(String) -> String, old] {
        assert_eq!(agrees_on_text(written(good.concat()).as_bytes()), 0);
        for line in LINES {
            for text in [
                line.to_string(),
                [line, good[0], good[1]].concat(),
                [good[0], line, good[1]].concat(),
                [good[0], good[1], line].concat(),
            ] {
                let text = written(text);
                assert_eq!(agrees_on_text(text.as_bytes()), 14, "{text:?}");
            }
        }
    }
}

/// Four digits and six in one list, at each place; other counts of digits.
#[test]
fn mixtures_are_14() {
    let addresses = ["C0FA", "C100", "C110"];
    for chosen in 0..8 {
        let line = |k: usize| match chosen >> k & 1 {
            0 => format!("{}\t0\t0\tS\t0\t0\n", addresses[k]),
            _ => format!("12{}\t0\t0\tS\t0\t0\n", addresses[k]),
        };
        let text: String = (0..3).map(line).collect();
        let number = if chosen == 0 || chosen == 7 { 0 } else { 14 };
        assert_eq!(agrees_on_text(text.as_bytes()), number, "{text:?}");
    }
    for digits in 1..10 {
        let text = format!("{:0digits$X}\t0\t0\tS\t0\t0\n", 0xF);
        let number = if matches!(digits, 4 | 6) { 17 } else { 14 };
        assert_eq!(agrees_on_text(text.as_bytes()), number, "{text:?}");
    }
}

const LINES: [&str; 33] = [
    "\n",
    "\r\n",
    " \n",
    "\t\n",
    "I\t12C0F8\t32\tC0FF\n",
    "I\n",
    "C100",
    "C100\n",
    "C100\t0\t0\tN\t0\t0",
    "C100\t0\t0\tN\t0\t0\r\n",
    "C100\t0\t0\tN\t0\t0\t\n",
    "C100\t0\t0\tN\t0\t0 \n",
    "C100\t0\t0\tN\t0\n",
    "C100\t0\t0\tN\t0\t0\t0\n",
    "C100 0 0 N 0 0\n",
    "C100,0,0,N,0,0\n",
    "c100\t0\t0\tN\t0\t0\n",
    "C10O\t0\t0\tN\t0\t0\n",
    "100\t0\t0\tN\t0\t0\n",
    "0C100\t0\t0\tN\t0\t0\n",
    "C100\t2\t0\tN\t0\t0\n",
    "C100\t0\t2\tN\t0\t0\n",
    "C100\t00\t0\tN\t0\t0\n",
    "C100\t\t0\tN\t0\t0\n",
    "C100\t0\t0\tn\t0\t0\n",
    "C100\t0\t0\tH\t0\t0\n",
    "C100\t0\t0\t0\t0\t0\n",
    "C100\t0\t0\tSL\t0\t0\n",
    "C100\t0\t0\tN\t1\t0\n",
    "C100\t0\t0\tN\t0\t1\n",
    "C100\t0\t0\tS\t2\t0\n",
    "C100\t0\t0\tS\t0\t2\n",
    "C100\t0\t0\tS\t1\n",
];

/// Strictly ascending: an address twice, with equal or other fields, and
/// descending neighbours are 14, whether or not they are in the image.
#[test]
fn unordered_lines_are_14() {
    for (first, second) in [
        ("C100", "C100"),
        ("C101", "C100"),
        ("C100", "C0FF"),
        ("FFFF", "FFFF"),
        ("FFFF", "0000"),
        ("0000", "0000"),
        ("12C100", "12C100"),
        ("12C101", "12C100"),
        ("13C0FA", "12C100"),
        ("FFFFFF", "000000"),
    ] {
        for rest in ["0\t0\tN\t0\t0\n", "0\t0\tS\t0\t0\n"] {
            let text = format!("{first}\t0\t0\tN\t0\t0\n{second}\t{rest}");
            assert_eq!(agrees_on_text(text.as_bytes()), 14, "{text:?}");
        }
    }
    // In form, as 0000 is below all others.
    assert_eq!(
        agrees_on_text(b"0000\t0\t0\tN\t0\t0\nFFFF\t0\t0\tN\t0\t0\n"),
        17
    );
}

/// Right before the image and right behind it, at the bank's ends, and in the
/// last byte of each.
#[test]
fn an_address_outside_is_17() {
    for base in [
        0x00_0000, 0x00_0001, 0x00_FFFE, 0x12_C000, 0xFF_FFFB, 0xFF_FFFC,
    ] {
        let inside = |address: u32| (base..base + 4).contains(&address);
        let near = (0..8).map(|k| base.wrapping_add(k).wrapping_sub(2) & 0xFF_FFFF);
        let far = [0, 0x4000, base & 0xFFFF, base ^ 0x1_0000, 0xFF_FFFF];
        for address in near.chain(far) {
            let text = start_line(address, 0x01);
            let (answer, _) = build(&[0xDB; 4], base, base, &text);
            let expected = if inside(address) { 0 } else { 17 };
            assert_eq!(answer, expected, "{base:06X} {address:06X}");
        }
    }
    // In four digits an address lies in the base's bank.
    for (address, number) in [("BFFF", 17), ("C000", 0), ("C003", 0), ("C004", 17)] {
        let text = format!("{address}\t0\t0\tN\t0\t0\n");
        assert_eq!(build(&[0xDB; 4], 0x12_C000, 0x12_C000, &text).0, number);
    }
}

/// A reset outside the image is 17, also where its low 16 bits would not be.
#[test]
fn a_reset_outside_is_17() {
    for base in [0x00_0000, 0x12_C000, 0x12_FFFE, 0xFF_FFFC] {
        for at in 0..4 {
            assert_eq!(build(&[0xDB; 4], base, base + at, "").0, 0);
        }
        let beside = [base.wrapping_sub(1), base + 4, u32::MAX];
        let other_bit = (16..32).map(|bit| base + 1 ^ 1 << bit);
        for reset in beside.into_iter().chain(other_bit) {
            refused(17, &[0xDB; 4], base, reset, "");
            refused(17, &[0xDB; 4], base, reset, &lines(base, &[(1, 1)]));
        }
    }
}

/// 256 routines go, 257 are 17, as many as 65,536 too.
#[test]
fn as_many_as_256() {
    let image = [0xDB; 400];
    for (count, number) in [(0, 0), (255, 0), (256, 0), (257, 17), (258, 17), (399, 17)] {
        let routines: Vec<(u32, u8)> = (1..=count).map(|at| (at, 0x2B)).collect();
        let (answer, marks) = build(&image, 0xC000, 0xC000, &lines(0xC000, &routines));
        assert_eq!(answer, number, "{count}");
        if number == 0 {
            let all = |k: usize| marks[k] == if k == 0 { 1 } else { 0x2B };
            assert!((0..=count as usize).all(all));
            assert!(marks[count as usize + 1..].iter().all(|&m| m == 0));
        }
    }
    let all: String = (0..0x1_0000).map(|a| start_line(a, 0x01)).collect();
    refused(17, &image, 0xC000, 0xC000, &all);
    refused(
        14,
        &image,
        0xC000,
        0xC000,
        &format!("{all}00FFFF\t0\t0\tN\t0\t0\n"),
    );
}

/// 14 is judged over the whole text first: a malformed line behind 256 or
/// more good ones, the 300th among them, and behind one outside the image.
#[test]
fn a_malformed_line_is_14_wherever() {
    let image = [0xDB; 400];
    for count in [1, 2, 255, 256, 257, 299, 399] {
        let routines: Vec<(u32, u8)> = (1..=count).map(|at| (at, 0x2B)).collect();
        let text = lines(0xC000, &routines);
        for bad in [
            "\n",
            "FFFFFF\t0\t0\tN\t1\t0\n",
            "00C001\t0\t0\tN\t0\t0\n",
            "FFFFFF\t0\t0\tN\t0\t0",
            "FFFF\t0\t0\tN\t0\t0\n",
        ] {
            refused(14, &image, 0xC000, 0xC000, &format!("{text}{bad}"));
            refused(14, &image, 0xC000, 0xC000, &format!("{bad}{text}"));
            refused(14, &image, 0xC000, 0xFFFF, &format!("{text}{bad}"));
        }
    }
    refused(
        14,
        &image,
        0xC000,
        0xC000,
        "0000\t0\t0\tN\t0\t0\nC000\t0\t0\tN\t0\n",
    );
}

/// 14, 1, 2, 17: each goes before all that come later.
#[test]
fn numbers_in_their_order() {
    let outside = start_line(0x0000, 0x01);
    let too_many: String = (0xC000..0xC200).map(|a| start_line(a, 0x01)).collect();
    for text in ["", &outside, &too_many, &lines(0xC000, &[(0, 0x09)])] {
        // 1: no byte, one too many, marks of other lengths.
        for base in [0xC000, 0xFF_FFFF, 0x100_0000] {
            for (image_len, marks_len) in [(0, 0), (0, 1), (65_537, 65_537), (4, 0), (4, 3), (4, 5)]
            {
                let image = vec![0xDB; image_len];
                let mut marks = vec![BEFORE; marks_len];
                let text = text.as_bytes();
                assert_eq!(build_marks(&image, base, 0xC000, text, &mut marks), 1);
                assert_eq!(build_marks(&image, base, 0, text, &mut marks), 1);
                assert_eq!(build_marks(&image, base, 0, b"C000", &mut marks), 14);
                assert!(marks.iter().all(|&m| m == BEFORE));
            }
        }
        // 2: past FFFFFF, above it.
        for base in [0xFF_FFFD, 0xFF_FFFF, 0x100_0000, u32::MAX] {
            for reset in [base, 0, u32::MAX] {
                refused(2, &[0xDB; 4], base, reset, text);
                refused(2, &[0x00; 4], base, reset, text);
            }
            refused(14, &[0xDB; 4], base, base, &format!("{text}\n"));
        }
    }
}

/// 2 for a list in four digits over a bank's end, before any 17: whatever the
/// routines are, too many too. Behind 14 and 1. A list without lines has none.
#[test]
fn four_digits_over_a_banks_end_are_2() {
    let many: String = (0..300).map(|a| start_line(a, 0x01)).collect();
    let many = generate::routines_in(many.as_bytes(), |_| 4);
    let many = String::from_utf8(many).unwrap();
    for text in [
        "FFFE\t0\t0\tN\t0\t0\n",
        "0000\t0\t0\tN\t0\t0\n",
        "8000\t1\t0\tS\t0\t0\n",
        &many,
    ] {
        for base in [0xFFFD, 0xFFFF, 0x12_FFFE, 0xFE_FFFF, 0xFF_FFFD] {
            for (reset, code) in [(base, 0xDB), (0, 0xDB), (u32::MAX, 0x00)] {
                refused(2, &[code; 4], base, reset, text);
                refused(14, &[code; 4], base, reset, &format!("{text}\n"));
            }
            let mut marks = [BEFORE; 3];
            assert_eq!(
                build_marks(&[0xDB; 4], base, 0, text.as_bytes(), &mut marks),
                1
            );
        }
        // Up to the bank's end it is read.
        let (answer, _) = build(&[0xDB; 4], 0x12_FFFC, 0x12_FFFC, text);
        assert_eq!(answer, if text.starts_with("FFFE") { 0 } else { 17 });
    }
    assert_eq!(build(&[0xDB; 4], 0x12_FFFE, 0x12_FFFE, "").0, 0);
    assert_eq!(
        build(&[0xDB; 4], 0x12_FFFE, 0x12_FFFF, &start_line(0x13_0001, 9)).0,
        0
    );
}

/// Addresses in banks other than 0, up to a bank's end and to FFFFFF.
#[test]
fn addresses_in_their_bank() {
    for base in [0x00_FFFB, 0x12_FFFB, 0xFF_FFFB] {
        let text = "FFFF\t0\t0\tS\t0\t0\n";
        let built = build(&[0x20, 0xFF, 0xFF, 0xDB, 0x60], base, base, text);
        assert_eq!(built, (0, vec![1, 0, 0, 1, 0x09]));
        let built = build(&[0x4C, 0xFF, 0xFF, 0x00, 0xDB], base, base, "");
        assert_eq!(built, (0, vec![1, 0, 0, 0, 1]));
        // Straight on and by a branch past the end; back before the first.
        refused(17, &[0xEA; 5], base, base, "");
        refused(17, &[0xF0, 0x03, 0xDB, 0xDB, 0xDB], base, base, "");
        refused(17, &[0x80, 0xFD, 0xDB, 0xDB, 0xDB], base, base, "");
    }
    for (bank, number) in [(0x12, 0), (0x11, 17), (0x13, 17), (0x00, 17), (0xFF, 17)] {
        let image = [0x22, 0xFF, 0xFF, bank, 0xDB, 0x6B];
        let text = "FFFF\t0\t0\tL\t0\t0\n";
        assert_eq!(build(&image, 0x12_FFFA, 0x12_FFFA, text).0, number);
        let image = [0x5C, 0xFF, 0xFF, bank, 0xDB, 0xDB];
        assert_eq!(build(&image, 0x12_FFFA, 0x12_FFFA, "").0, number);
    }
    // From 000000 back is FFFFFx, which is no byte of it.
    refused(17, &[0x80, 0xFD], 0, 0, "");
}

/// Offsets that reset, routines or what they look at lead to, by a second
/// statement of the rules.
fn reached(image: &[u8], marks: &[u8], base: u32, roots: &BTreeSet<usize>) -> BTreeSet<usize> {
    let map = code_map();
    let case = Case {
        map: &map,
        image,
        marks,
        base,
    };
    let mut reached = roots.clone();
    let mut open: Vec<usize> = roots.iter().copied().collect();
    while let Some(at) = open.pop() {
        for address in case.looks_at(at) {
            let next = (address - base as i64) as usize;
            if reached.insert(next) {
                open.push(next);
            }
        }
    }
    reached
}

/// Of a program that will do with this list, the least marks: the check takes
/// them, they hold the routines, all calls go to routines, and there is no
/// start that neither reset nor routines lead to.
fn least_of(program: &CheckCase, listed: &[u8]) -> Vec<u8> {
    let case = BuildCase::listing(program.clone(), listed);
    let (answer, marks) = case.answer();
    assert_eq!(answer, 0, "{case:02X?}");
    let CheckCase {
        image, base, reset, ..
    } = program;
    assert_eq!(check(image, &marks, *base, *reset), 0);
    let mut roots = BTreeSet::from([(reset - base) as usize]);
    for (at, &mark) in listed.iter().enumerate().filter(|(_, m)| **m != 0) {
        assert_eq!(marks[at], mark);
        roots.insert(at);
    }
    for (at, &mark) in marks.iter().enumerate().filter(|(_, m)| **m != 0) {
        assert_eq!(mark, program.marks[at]);
        if matches!(image[at], 0x20 | 0x22) {
            let target = u16::from_le_bytes([image[at + 1], image[at + 2]]);
            assert!(listed[target.wrapping_sub(*base as u16) as usize] != 0);
        }
    }
    let starts: BTreeSet<usize> = (0..marks.len()).filter(|&at| marks[at] != 0).collect();
    assert_eq!(starts, reached(image, &marks, *base, &roots));
    marks
}

/// Accepted programs with the targets of their calls listed, and with other
/// starts besides.
#[test]
fn drawn_programs_have_least_marks() {
    let mut rng = Rng::new(61);
    let (mut fewer, mut whole) = (0, 0);
    for _ in 0..1_000 {
        let program = generate::accepted(&mut rng);
        let mut listed = generate::called(&program);
        let marks = least_of(&program, &listed);
        fewer += (marks != program.marks) as u32;
        for (at, &mark) in program.marks.iter().enumerate().take(250) {
            if rng.chance(1, 8) {
                listed[at] = mark;
            }
        }
        whole += (least_of(&program, &listed) == program.marks) as u32;
    }
    assert!(fewer > 100 && whole > 100, "{fewer} and {whole}");
}

/// Each carried code at each pair of widths, alone and in a row: there no
/// start is left out.
#[test]
fn every_code_leads_on() {
    for program in generate::every_code(&mut Rng::new(62)) {
        let mut listed = generate::called(&program);
        for (place, &mark) in listed.iter_mut().zip(&program.marks) {
            if mark & 0x18 != 0 {
                *place = mark;
            }
        }
        least_of(&program, &listed);
    }
    for program in generate::codes_in_a_row(&mut Rng::new(63)) {
        let listed = generate::called(&program);
        assert_eq!(least_of(&program, &listed), program.marks);
    }
}

/// The longest images: straight on, always backwards, through calls; and with
/// one byte more.
#[test]
fn the_longest_images() {
    let mut rng = Rng::new(64);
    for flow in [generate::straight, generate::backwards, generate::calling] {
        let mut case = flow(&mut rng, 65_536);
        let (answer, marks) = case.answer();
        assert_eq!(answer, 0);
        assert_eq!(check(&case.image, &marks, case.base, case.reset), 0);
        assert!(marks.iter().filter(|&&m| m != 0).count() > 16_000);
        case.image.push(0xDB);
        assert_eq!(case.answer().0, 1);
        case.marks.push(0);
        assert_eq!(case.answer().0, 1);
    }
    // Every byte a start, and both ways of branches wherever they lead.
    let (answer, marks) = build(
        &[vec![0xEA; 65_535], vec![0xDB]].concat(),
        0xC000,
        0xC000,
        "",
    );
    assert_eq!((answer, marks), (0, vec![1; 65_536]));
    let image = [[0xF0, 0x02].repeat(32_766), vec![0xDB; 4]].concat();
    let (answer, marks) = build(&image, 0xC000, 0xC000, "");
    assert_eq!(answer, 0);
    assert_eq!(marks.iter().filter(|&&m| m != 0).count(), 32_768);
}
