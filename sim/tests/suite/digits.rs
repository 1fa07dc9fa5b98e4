//! Lists by the digits of their addresses (02, R-7): wholly in six, wholly in
//! four where the image fits one bank, and no others.

use crate::lists::{number, CASE_1, MARKS_1};
use sim7700::generate::{self, in_four, ReadCase, Rng};
use sim7700::{read_list, write_list};
use std::collections::BTreeSet;

/// 01's own text of case 1.
const OLD_CASE_1: &str = "I\t00C000\t7\tC000\n\
C000\t0\t0\tN\t0\t0\n\
C003\t0\t0\tN\t0\t0\n\
C004\t1\t0\tN\t0\t0\n\
C006\t1\t0\tN\t0\t0\n";

/// The list that the writer makes of marks.
fn list(marks: &[u8], base: u32, reset: u32) -> Vec<u8> {
    let mut page = vec![0; 17 * marks.len() + 22];
    let answer = write_list(marks, base, reset, &mut page);
    assert_eq!(answer & 0xFF, 0, "{marks:02X?} {base:06X} {reset:06X}");
    page.truncate((answer >> 8) as usize);
    page
}

/// Reading it gives the whole reset; written, it comes out in six digits.
#[test]
fn case_1_is_still_read() {
    let mut marks = [0xAA; 7];
    let answer = read_list(OLD_CASE_1.as_bytes(), &mut marks);
    assert_eq!(answer, 0x00_C000 << 32 | 0x00_C000 << 8);
    assert_eq!(marks, MARKS_1);
    assert_eq!(list(&marks, 0xC000, 0xC000), CASE_1.as_bytes());
    let other_bank = OLD_CASE_1.replace("00C000", "12C000");
    let answer = read_list(other_bank.as_bytes(), &mut marks);
    assert_eq!(answer, 0x12_C000 << 32 | 0x12_C000 << 8);
    assert_eq!(marks, MARKS_1);
}

/// Base, length, the reset's digits, addresses of starts, and the number.
type Digits = (
    &'static str,
    usize,
    &'static str,
    &'static [&'static str],
    u64,
);

#[rustfmt::skip]
const TEXTS: [Digits; 50] = [
    // One bank: six or four, and nothing else.
    ("12C000", 7, "12C000", &["12C000", "12C006"], 0),
    ("12C000", 7, "C000", &["C000", "C006"], 0),
    ("12C000", 7, "C000", &["12C000", "12C006"], 14),
    ("12C000", 7, "12C000", &["C000", "C006"], 14),
    ("12C000", 7, "12C000", &["12C000", "C006"], 14),
    ("12C000", 7, "12C000", &["C000", "12C006"], 14),
    ("12C000", 7, "C000", &["C000", "12C006"], 14),
    ("12C000", 7, "C000", &["12C000", "C006"], 14),
    ("12C000", 7, "2C000", &["2C000", "2C006"], 14),
    ("12C000", 7, "012C000", &["012C000", "012C006"], 14),
    ("12C000", 7, "000", &["000", "006"], 14),
    ("12C000", 7, "0012C000", &["0012C000"], 14),
    ("12C000", 7, "12C000", &["2C000"], 14),
    ("12C000", 7, "12C000", &["012C000"], 14),
    ("12C000", 7, "C000", &["0C000"], 14),
    ("12C000", 7, "C000", &["000"], 14),
    ("12C000", 7, "12c000", &["12C000"], 14),
    ("12C000", 7, "", &["12C000"], 14),
    // The bank is the base's: no other can be named in four digits, and in six
    // it is the base's own.
    ("12C000", 7, "C000", &["BFFF", "C000"], 14),
    ("12C000", 7, "C000", &["C000", "C007"], 14),
    ("12C000", 7, "00C000", &["00C000"], 14),
    ("12C000", 7, "00C000", &["12C000"], 3),
    ("12C000", 7, "C001", &["C000"], 3),
    // Without starts the reset's digits decide.
    ("12C000", 7, "12C000", &[], 3),
    ("12C000", 7, "C000", &[], 3),
    ("12C000", 7, "2C000", &[], 14),
    ("12C000", 7, "012C000", &[], 14),
    ("12FFFC", 7, "12FFFC", &[], 3),
    ("12FFFC", 7, "FFFC", &[], 2),
    ("FFFFFC", 7, "FFFFFC", &[], 2),
    ("FFFFFC", 7, "FFFC", &[], 2),
    // Up to a bank's end, and over it: in four digits a start of the next bank
    // is 14, and without one the list is 2.
    ("12FFF9", 7, "FFF9", &["FFF9", "FFFF"], 0),
    ("130000", 7, "0000", &["0000", "0006"], 0),
    ("12FFFC", 7, "12FFFC", &["12FFFC", "12FFFF", "130000", "130002"], 0),
    ("12FFFC", 7, "130000", &["12FFFF", "130000"], 0),
    ("12FFFC", 7, "FFFC", &["FFFC", "FFFF"], 2),
    ("12FFFC", 7, "FFFC", &["FFFC"], 2),
    ("12FFFC", 7, "0000", &["FFFC"], 2),
    ("12FFFC", 7, "FFFC", &["FFFC", "0000"], 14),
    ("12FFFC", 7, "0000", &["0000", "FFFC"], 14),
    ("12FFFC", 7, "0000", &["0000"], 14),
    ("12FFFC", 7, "12FFFC", &["12FFFC", "0000"], 14),
    ("12FFFC", 7, "FFFC", &["FFFC", "130000"], 14),
    ("12FFFC", 7, "12FFFC", &["12FFFC", "130003"], 14),
    // Up to FFFFFF and over it.
    ("FFFFF9", 7, "FFFFFF", &["FFFFFF"], 0),
    ("FFFFF9", 7, "FFFF", &["FFFF"], 0),
    ("FFFFFA", 7, "FFFFFA", &["FFFFFA", "FFFFFF"], 2),
    ("FFFFFA", 7, "FFFA", &["FFFA", "FFFF"], 2),
    ("FFFFFA", 7, "FFFFFA", &["FFFFFA", "000000"], 14),
    ("000000", 7, "000000", &["000000"], 0),
];

#[test]
fn six_digits_or_four() {
    for (base, length, reset, starts, answer) in TEXTS {
        let line = |start: &&str| format!("{start}\t0\t0\tN\t0\t0\n");
        let lines: String = starts.iter().map(line).collect();
        let text = format!("I\t{base}\t{length}\t{reset}\n{lines}");
        assert_eq!(number(&text, length), answer, "{text:?}");
        // 1 comes between 14 and 2.
        let other_length = if answer == 14 { 14 } else { 1 };
        assert_eq!(number(&text, length + 1), other_length, "{text:?}");
    }
}

/// The greatest length in four digits: it fits a bank from its first byte on.
#[test]
fn the_longest_image_in_four_digits() {
    let start = "\t0\t0\tN\t0\t0\n";
    for (text, answer) in [
        (format!("I\t120000\t65536\tFFFF\n0000{start}FFFF{start}"), 0),
        (format!("I\t120001\t65535\tFFFF\n0001{start}FFFF{start}"), 0),
        (format!("I\t120001\t65536\tFFFF\n0001{start}FFFF{start}"), 2),
        (
            format!("I\t120001\t65536\tFFFF\n0000{start}FFFF{start}"),
            14,
        ),
        (format!("I\t120000\t65537\tFFFF\n0000{start}FFFF{start}"), 1),
    ] {
        let length = text[9..14].parse().unwrap();
        assert_eq!(number(&text, length), answer, "{text:?}");
    }
}

/// Of images in one bank the old list gives what the list gives.
#[test]
fn old_lists_come_out_in_six_digits() {
    let mut rng = Rng::new(71);
    let (mut old, mut across) = (0, 0);
    while old < 1_000 || across < 300 {
        let case = generate::accepted(&mut rng);
        let text = list(&case.marks, case.base, case.reset);
        let whole = (case.base as u64) << 8 | (case.reset as u64) << 32;
        let mut marks = vec![0xAA; case.marks.len()];
        assert_eq!(read_list(&text, &mut marks), whole);
        assert_eq!(marks, case.marks);
        let in_four = in_four(&text);
        assert_eq!(
            text.len() - in_four.len(),
            2 * text.split(|&b| b == b'\n').count() - 2
        );
        let mut marks = vec![0xAA; case.marks.len()];
        let answer = read_list(&in_four, &mut marks);
        if (case.base & 0xFFFF) as usize + case.marks.len() <= 0x1_0000 {
            assert_eq!((answer, &marks), (whole, &case.marks));
            assert_eq!(list(&marks, case.base, case.reset), text);
            old += 1;
        } else {
            assert!(answer == 2 || answer == 14);
            across += 1;
        }
    }
}

/// A second reader: base, reset and marks, or the number.
fn second_reader(text: &[u8], marks_len: usize) -> Result<(usize, usize, Vec<u8>), u64> {
    let (base, length, reset, four, starts) = parsed(text).ok_or(14u64)?;
    let bank = if four { base >> 16 << 16 } else { 0 };
    let first = if four { base & 0xFFFF } else { base };
    let inside = |&(address, _): &(usize, u8)| (first..first + length).contains(&address);
    let ascending = starts.windows(2).all(|pair| pair[0].0 < pair[1].0);
    if !ascending || !starts.iter().all(inside) {
        return Err(14);
    }
    if length == 0 || length > 65_536 || length != marks_len {
        return Err(1);
    }
    if first + length > if four { 0x1_0000 } else { 0x100_0000 } {
        return Err(2);
    }
    if !starts.contains(&(reset, 1)) {
        return Err(3);
    }
    let mut marks = vec![0; length];
    for (address, mark) in starts {
        marks[address - first] = mark;
    }
    Ok((base, bank + reset, marks))
}

/// Base, length, reset, whether it is in four digits, and the starts.
type Parsed = (usize, usize, usize, bool, Vec<(usize, u8)>);

fn parsed(text: &[u8]) -> Option<Parsed> {
    let text = std::str::from_utf8(text).ok()?.strip_suffix('\n')?;
    let mut lines = text.split('\n');
    let head: Vec<&str> = lines.next()?.split('\t').collect();
    let ["I", base, length, reset] = head[..] else {
        return None;
    };
    let digits = reset.len();
    if digits != 4 && digits != 6 {
        return None;
    }
    let in_form = length.bytes().all(|b| b.is_ascii_digit()) && (1..6).contains(&length.len());
    if !in_form || length.len() > 1 && length.starts_with('0') {
        return None;
    }
    let starts: Option<Vec<(usize, u8)>> = lines.map(|line| start(line, digits)).collect();
    Some((
        hex(base, 6)?,
        length.parse().ok()?,
        hex(reset, digits)?,
        digits == 4,
        starts?,
    ))
}

fn hex(field: &str, digits: usize) -> Option<usize> {
    let capital = field
        .bytes()
        .all(|b| b.is_ascii_digit() || (b'A'..=b'F').contains(&b));
    let in_form = capital && field.len() == digits;
    in_form.then(|| usize::from_str_radix(field, 16).unwrap())
}

fn start(line: &str, digits: usize) -> Option<(usize, u8)> {
    let fields: Vec<&str> = line.split('\t').collect();
    let [address, m, x, kind, return_m, return_x] = fields[..] else {
        return None;
    };
    let place = |field: &str, words: &[&str]| words.iter().position(|word| *word == field);
    let bit = |field: &str| place(field, &["0", "1"]);
    let kind = place(kind, &["N", "S", "L"])?;
    let (return_m, return_x) = (bit(return_m)?, bit(return_x)?);
    let mark = 1 + 2 * bit(m)? + 4 * bit(x)? + 8 * kind + 32 * return_m + 64 * return_x;
    let in_form = kind > 0 || return_m + return_x == 0;
    in_form.then_some((hex(address, digits)?, mark as u8))
}

fn agrees(case: &ReadCase) -> u64 {
    let (answer, marks) = case.answer();
    let expected = match second_reader(&case.text, case.marks_len) {
        Ok((base, reset, marks)) => ((base as u64) << 8 | (reset as u64) << 32, marks),
        Err(number) => (number, vec![0x5A; case.marks_len]),
    };
    assert_eq!(answer, expected.0, "{}", case.text.escape_ascii());
    assert!(marks == expected.1, "{}", case.text.escape_ascii());
    answer & 0xFF
}

#[test]
fn a_second_reader_agrees() {
    let mut seen = BTreeSet::new();
    for case in generate::digit_lists()
        .iter()
        .chain(&generate::out_of_form())
    {
        seen.insert(agrees(case));
    }
    assert_eq!(seen, BTreeSet::from([0, 1, 2, 3, 14]));
    let mut rng = Rng::new(72);
    for _ in 0..20_000 {
        agrees(&generate::read_case(&mut rng));
    }
    for number in [0, 1, 2, 3, 14] {
        for _ in 0..500 {
            assert_eq!(agrees(&generate::read_by(&mut rng, number)), number as u64);
        }
    }
}

/// Each byte of an old list replaced by each other, and each put in.
#[test]
fn an_old_list_damaged_everywhere() {
    for text in [
        OLD_CASE_1.to_string(),
        OLD_CASE_1.replace("00C000", "00FFFC"),
    ] {
        for at in 0..=text.len() {
            let (front, rest) = text.as_bytes().split_at(at);
            let behind = rest.get(1..).unwrap_or_default();
            for byte in 0..=255 {
                for text in [
                    &[front, &[byte], behind].concat(),
                    &[front, &[byte], rest].concat(),
                ] {
                    let text = text.to_vec();
                    agrees(&ReadCase { text, marks_len: 7 });
                }
            }
        }
    }
}
