//! Texts for the list reader and marks for the list writer.

use super::digits::{in_four, rewritten};
use super::{check_case, crossing_base, damaged, CheckCase, Rng};
use crate::numbers::{MAX_ADDRESS, MAX_IMAGE};
use crate::{read_list, write_list};
use std::collections::BTreeSet;

/// Arguments of the reader: a text and the length of the marks buffer.
#[derive(Clone, PartialEq, Eq, Debug)]
pub struct ReadCase {
    pub text: Vec<u8>,
    pub marks_len: usize,
}

/// Arguments of the writer; the page has a length only.
#[derive(Clone, PartialEq, Eq, Debug)]
pub struct WriteCase {
    pub marks: Vec<u8>,
    pub base: u32,
    pub reset: u32,
    pub page_len: usize,
}

/// The list of a case's marks, if it has one.
fn list_of(case: &CheckCase) -> Option<Vec<u8>> {
    let mut page = vec![0; 17 * case.marks.len() + 32];
    let answer = write_list(&case.marks, case.base, case.reset, &mut page);
    page.truncate((answer >> 8) as usize);
    (answer & 0xFF == 0).then_some(page)
}

/// A list, one time out of three in four digits: valid, damaged in a byte, with
/// an overlong number, with lines in another order or in other digits, or for
/// marks of another length.
pub fn read_case(rng: &mut Rng) -> ReadCase {
    let (mut text, mut marks_len) = loop {
        let case = check_case(rng);
        match list_of(&case) {
            Some(text) if case.marks.len() < 200 => break (text, case.marks.len()),
            _ => {}
        }
    };
    if rng.chance(1, 3) {
        text = in_four(&text);
    }
    match rng.below(16) {
        0..=2 => {}
        3..=5 => damage_byte(rng, &mut text),
        6 => overlong(rng, &mut text),
        7 => reorder(rng, &mut text),
        8 => marks_len = (marks_len + 2).saturating_sub(1 + rng.index(3)),
        9 => text.truncate(rng.index(text.len())),
        10..=13 => head(rng, &mut text, &mut marks_len),
        14 => text = mixture(rng, &text),
        _ => {
            damage_byte(rng, &mut text);
            damage_byte(rng, &mut text);
        }
    }
    ReadCase { text, marks_len }
}

const TEXT_BYTES: [u8; 16] = *b"01279AFIJNSLac\t\n";

pub(super) fn damage_byte(rng: &mut Rng, text: &mut Vec<u8>) {
    let at = rng.index(text.len());
    let byte = match rng.below(4) {
        0 => rng.byte(),
        _ => *rng.pick(&TEXT_BYTES),
    };
    match rng.below(6) {
        0 => text.insert(at, byte),
        1 if text.len() > 1 => {
            text.remove(at);
        }
        _ => text[at] = byte,
    }
}

/// One more digit in a field: at its front or at its end.
pub(super) fn overlong(rng: &mut Rng, text: &mut Vec<u8>) {
    let fields: Vec<usize> = (1..text.len())
        .filter(|&k| matches!(text[k], b'\t' | b'\n'))
        .collect();
    let mut at = *rng.pick(&fields);
    if rng.chance(1, 2) && at + 1 < text.len() {
        at += 1;
    }
    text.insert(at, *rng.pick(b"0019F"));
}

/// Some lines in four digits, the others in six.
fn mixture(rng: &mut Rng, text: &[u8]) -> Vec<u8> {
    let chosen = rng.next_u64();
    rewritten(
        text,
        |line| if chosen >> (line % 64) & 1 == 1 { 4 } else { 6 },
    )
}

/// Swaps two lines, or says one twice.
pub(super) fn reorder(rng: &mut Rng, text: &mut Vec<u8>) {
    let mut lines: Vec<Vec<u8>> = text
        .split_inclusive(|&b| b == b'\n')
        .map(<[u8]>::to_vec)
        .collect();
    let (a, b) = (rng.index(lines.len()), rng.index(lines.len()));
    if rng.chance(1, 3) {
        let line = lines[a].clone();
        lines.insert(b, line);
    } else {
        lines.swap(a, b);
    }
    *text = lines.concat();
}

/// Another first line: lengths and bases at their limits.
fn head(rng: &mut Rng, text: &mut Vec<u8>, marks_len: &mut usize) {
    let line_end = text.iter().position(|&b| b == b'\n').map_or(0, |k| k + 1);
    let starts = text.split_off(line_end);
    let lengths = ["0", "1", "2", "7", "8", "16385", "65536", "65537", "99999"];
    let more = ["00", "01", "016", "100000", "", "-1"];
    let length = if rng.chance(3, 4) {
        *rng.pick(&lengths)
    } else {
        *rng.pick(&more)
    };
    let bases = ["000000", "00C000", "FFFFFF", "00FFFF", "12FFF9", "FF0000"];
    let base = match rng.below(7) {
        0 => "1000000",
        _ => *rng.pick(&bases),
    };
    let other = ["0000", "C000", "FFF9", "10000", "00C000", "12FFFF"];
    let reset = match rng.below(5) {
        0 => *rng.pick(&other),
        1 | 2 => &base[base.len() - 4..],
        _ => base,
    };
    *text = format!("I\t{base}\t{length}\t{reset}\n").into_bytes();
    if rng.chance(1, 2) {
        let line = format!("{reset}\t0\t0\tN\t0\t0\n");
        text.extend_from_slice(line.as_bytes());
    } else {
        text.extend_from_slice(&starts);
    }
    if let Ok(length) = length.parse::<usize>() {
        if rng.chance(3, 4) {
            *marks_len = length.min(MAX_IMAGE + 1);
        }
    }
}

/// Marks for the writer with a page that is exact, short or long.
pub fn write_case(rng: &mut Rng) -> WriteCase {
    let case = if rng.chance(1, 3) {
        damaged(rng)
    } else {
        check_case(rng)
    };
    let exact = list_of(&case).map_or(40, |text| text.len());
    let page_len = match rng.below(8) {
        0 | 1 => exact,
        2 | 3 => exact - 1,
        4 => 0,
        5 => rng.index(exact + 1),
        _ => exact + rng.index(40),
    };
    WriteCase {
        marks: case.marks,
        base: case.base,
        reset: case.reset,
        page_len,
    }
}

impl ReadCase {
    /// The reader's answer and the marks after it, all 5A before.
    pub fn answer(&self) -> (u64, Vec<u8>) {
        let mut marks = vec![0x5A; self.marks_len];
        (read_list(&self.text, &mut marks), marks)
    }
}

impl WriteCase {
    /// The writer's answer and the page after it, all A5 before.
    pub fn answer(&self) -> (u64, Vec<u8>) {
        let mut page = vec![0xA5; self.page_len];
        let answer = write_list(&self.marks, self.base, self.reset, &mut page);
        (answer, page)
    }
}

/// Marks with starts that are drawn, the first a reset's.
fn drawn_marks(rng: &mut Rng, length: usize) -> Vec<u8> {
    let good = [
        0x01, 0x03, 0x05, 0x07, 0x09, 0x11, 0x2B, 0x4D, 0x6F, 0x77, 0x31,
    ];
    let mut marks: Vec<u8> = (0..length)
        .map(|_| {
            if rng.chance(1, 2) {
                *rng.pick(&good)
            } else {
                0
            }
        })
        .collect();
    marks[0] = 0x01;
    marks
}

/// A base for this many bytes, some of them across a bank's end.
fn drawn_base(rng: &mut Rng, length: usize) -> u32 {
    if length > 1 && rng.chance(1, 4) {
        return crossing_base(rng, length);
    }
    let last = 0x1_0000 - length as u32;
    let bank = *rng.pick(&[0u32, 1, 0x12, 0x7F, 0xAB, 0xFF]) << 16;
    bank | *rng.pick(&[0, 1, 0xC000, last, last.min(0xFFF0), 0xABCD.min(last)])
}

pub(super) fn head_line(base: u32, length: &str, reset: u32) -> String {
    format!("I\t{base:06X}\t{length}\t{reset:06X}\n")
}

/// A text that is answered with this number: 0, 1, 2, 3 or 14. Many of them
/// break later rules too.
pub fn read_by(rng: &mut Rng, number: u8) -> ReadCase {
    loop {
        let case = aimed_text(rng, number);
        if case.answer().0 as u8 == number {
            return case;
        }
    }
}

fn aimed_text(rng: &mut Rng, number: u8) -> ReadCase {
    let length = 1 + rng.index(9);
    let mut marks = drawn_marks(rng, length);
    let base = drawn_base(rng, length);
    if number == 3 {
        marks[0] = *rng.pick(&[0, 0x01, 0x03, 0x05, 0x07, 0x09, 0x11]);
    }
    let near = [
        base,
        base,
        base + length as u32,
        base.wrapping_sub(1),
        base ^ 0x1_0000,
        0,
    ];
    let reset = match number {
        3 => *rng.pick(&near) & MAX_ADDRESS,
        _ => base,
    };
    let listed = head_line(base, &length.to_string(), reset) + &starts_of(&marks, base);
    let (mut text, marks_len) = match number {
        1 if rng.chance(1, 2) => {
            let others = [0, length - 1, length + 1, length + 256, MAX_IMAGE];
            (listed, *rng.pick(&others))
        }
        1 => bad_length(rng, &marks, base),
        2 => bad_base(rng, &marks),
        14 => (listed, *rng.pick(&[length, length, 0, length + 1])),
        _ => (listed, length),
    };
    if rng.chance(1, 3) {
        text = string(in_four(text.as_bytes()));
    }
    let mut text = text.into_bytes();
    match number {
        14 if rng.chance(1, 8) => text = mixture(rng, &text),
        14 => damage_byte(rng, &mut text),
        _ => {}
    }
    ReadCase { text, marks_len }
}

fn string(text: Vec<u8>) -> String {
    text.into_iter().map(char::from).collect()
}

/// A list whose length is no image's, or no marks' length; its base, its reset
/// or both may be broken too.
fn bad_length(rng: &mut Rng, marks: &[u8], base: u32) -> (String, usize) {
    let lengths = ["0", "65536", "65537", "70000", "99999"];
    let said = *rng.pick(&lengths);
    let number: usize = said.parse().unwrap_or(0);
    let marks_len = match number {
        1..=MAX_IMAGE => number + 1,
        _ => number,
    };
    let placed = rng.chance(1, 2);
    let base = if placed { base } else { base | 0xFFFF };
    let reset = base ^ rng.below(2) as u32;
    let lines = if placed && number > 0 {
        starts_of(marks, base)
    } else {
        String::new()
    };
    (head_line(base, said, reset) + &lines, marks_len)
}

/// A list whose image goes on past FFFFFF, or past a bank's end with addresses
/// in four digits.
fn bad_base(rng: &mut Rng, marks: &[u8]) -> (String, usize) {
    let length = marks.len();
    let marks_len = *rng.pick(&[length + 1, length + 2, 256, 16_384]);
    let end = *rng.pick(&[0x1_0000, 0x13_0000, 0x100_0000]);
    let base = end - length as u32;
    let reset = if rng.chance(1, 2) { base } else { 0 };
    let mut text = head_line(base, &marks_len.to_string(), reset);
    if rng.chance(2, 3) {
        text += &starts_of(marks, base);
    }
    if end <= MAX_ADDRESS {
        text = string(in_four(text.as_bytes()));
    }
    (text, marks_len)
}

/// The lines of the starts among marks, their addresses whole.
pub(super) fn starts_of(marks: &[u8], base: u32) -> String {
    let starts = marks.iter().enumerate().filter(|(_, m)| **m != 0);
    let line = |(k, &mark): (usize, &u8)| start_line(base.wrapping_add(k as u32), mark);
    starts.map(line).collect()
}

/// The line of a start at an address.
pub fn start_line(address: u32, mark: u8) -> String {
    let bit = |mask: u8| (mark & mask != 0) as u8;
    let kind = ['N', 'S', 'L'][(mark >> 3 & 3) as usize];
    let (m, x, rm, rx) = (bit(2), bit(4), bit(0x20), bit(0x40));
    format!("{address:06X}\t{m}\t{x}\t{kind}\t{rm}\t{rx}\n")
}

/// One list in form, in six digits and in four, and many that are not quite:
/// lines in wrong order, twice or empty, more or fewer digits, small letters,
/// other bytes between fields, something behind the end; each for marks of its
/// length.
pub fn out_of_form() -> Vec<ReadCase> {
    let marks = [0x01, 0, 0x0B, 0x77, 0x31, 0, 0, 0x05, 0, 0x01];
    let base = 0xAB_CDEA;
    let text = head_line(base, "10", base) + &starts_of(&marks, base);
    let old = string(in_four(text.as_bytes()));
    let mut cases = vec![ReadCase {
        text: Vec::new(),
        marks_len: 0,
    }];
    for (text, bank) in [(text, "AB"), (old, "")] {
        let texts = nearly(&text, bank).into_iter();
        cases.extend(texts.map(|text| ReadCase {
            text: text.into_bytes(),
            marks_len: marks.len(),
        }));
        let others = [0, 1, 9, 11, 266, MAX_IMAGE, MAX_IMAGE + 1, 65_546];
        cases.extend(others.map(|marks_len| ReadCase {
            text: text.clone().into_bytes(),
            marks_len,
        }));
    }
    cases
}

/// A list and texts that are not quite one; an address in it begins with these
/// digits of the bank.
fn nearly(text: &str, bank: &str) -> Vec<String> {
    let lines: Vec<&str> = text.split_inclusive('\n').collect();
    let mut texts = vec![text.to_string()];
    for a in 0..lines.len() {
        for b in 0..a {
            let mut swapped = lines.clone();
            swapped.swap(a, b);
            texts.push(swapped.concat());
        }
        let (before, behind) = (lines[..a].concat(), lines[a + 1..].concat());
        let line = lines[a];
        texts.push(format!("{before}{behind}"));
        texts.push(format!("{before}{line}{line}{behind}"));
        texts.push(format!("{before}\n{line}{behind}"));
        texts.push(format!("{before}{}\r\n{behind}", line.trim_end()));
        texts.push(format!("{before}{}\t\n{behind}", line.trim_end()));
        texts.push(format!("{before}{}{behind}", line.trim_end()));
        texts.push(format!("{before}{}{behind}", line.replace('\t', " ")));
        for other in other_fields(line) {
            texts.push(format!("{before}{other}\n{behind}"));
        }
    }
    let start = "\t0\t0\tN\t0\t0\n";
    for tail in ["\n", "\0", " ", "\t", "I"] {
        texts.push(format!("{text}{tail}"));
    }
    texts.push(format!("{text}{bank}CDF3"));
    texts.push(format!("{text}{bank}CDF4{start}"));
    // Addresses: next below, next above, the bank's last and first, and one
    // that will do.
    for low in ["CDE9", "CDF4", "FFFF", "0000", "CDF3"] {
        texts.push(format!("{}{bank}{low}{start}", lines[0]));
        texts.push(format!("{}{}{bank}{low}{start}", lines[0], lines[1]));
    }
    let mut seen = BTreeSet::new();
    texts.retain(|text| seen.insert(text.clone()));
    texts
}

/// A line with one of its fields written in another way.
fn other_fields(line: &str) -> Vec<String> {
    let fields: Vec<&str> = line.trim_end().split('\t').collect();
    let mut lines = Vec::new();
    for (at, &field) in fields.iter().enumerate() {
        let others = [
            format!("0{field}"),
            format!("00{field}"),
            format!("{field}0"),
            format!("1{field}"),
            format!("+{field}"),
            format!(" {field}"),
            format!("{field} "),
            field[1..].to_string(),
            field[2.min(field.len())..].to_string(),
            field.to_lowercase(),
            field.replace('0', "O"),
            field.replace('1', "2"),
        ];
        for other in others.iter().filter(|other| *other != field) {
            let mut fields = fields.clone();
            fields[at] = other;
            lines.push(fields.join("\t"));
        }
    }
    lines
}

/// Marks that the writer answers with this number: 0, 1, 2, 3, 4 or 15. Many
/// of them break later rules too.
pub fn write_by(rng: &mut Rng, number: u8) -> WriteCase {
    loop {
        let case = aimed_marks(rng, number);
        if case.answer().0 as u8 == number {
            return case;
        }
    }
}

fn aimed_marks(rng: &mut Rng, number: u8) -> WriteCase {
    let length = 1 + rng.index(12);
    let mut marks = drawn_marks(rng, length);
    let mut base = drawn_base(rng, length);
    let mut reset = base;
    let starts = marks.iter().filter(|&&m| m != 0).count();
    let exact = 17 + length.to_string().len() + 17 * starts;
    // In the order of the writer's rules: 1, 2, 4, 3, 15.
    let order = [1, 2, 4, 3, 15];
    let first = order.iter().position(|&n| n == number);
    let later = rng.chance(1, 2);
    let mut page_len = exact + *rng.pick(&[0, 0, 1, 20]);
    for (place, rule) in order.iter().enumerate() {
        let also = later && Some(place) > first && first.is_some() && rng.chance(1, 2);
        if Some(place) != first && !also {
            continue;
        }
        match rule {
            1 => marks.clear(),
            2 => base = broken_base(rng, length),
            4 if !marks.is_empty() => {
                let at = *rng.pick(&[0, marks.len() - 1, marks.len() / 2]);
                let bad = [
                    0x02, 0x80, 0x81, 0x19, 0x21, 0x41, 0x08, 0x40, 0xFF, 0x99, 0x04,
                ];
                marks[at] = *rng.pick(&bad);
            }
            3 => match rng.below(3) {
                0 if !marks.is_empty() => marks[0] = *rng.pick(&[0, 0x03, 0x05, 0x09, 0x11]),
                1 => {
                    let others = [reset ^ 0x1_0000, reset & 0xFFFF, reset | 0x100_0000];
                    reset = *rng.pick(&[&others[..], &[0x1_0000, u32::MAX]].concat());
                }
                _ => {
                    let behind = reset.wrapping_add(length as u32);
                    reset = *rng.pick(&[behind, reset.wrapping_sub(1), reset ^ 0x8000]);
                }
            },
            15 => {
                page_len = *rng.pick(&[0, 1, 17, 18, exact - 18, exact - 17, exact - 1, exact / 2])
            }
            _ => {}
        }
    }
    WriteCase {
        marks,
        base,
        reset,
        page_len,
    }
}

/// Above FFFFFF, or past it with one byte or more.
pub(super) fn broken_base(rng: &mut Rng, length: usize) -> u32 {
    let past = 0x100_0001 - length as u32 + rng.below(length as u64) as u32;
    match rng.below(3) {
        0 => *rng.pick(&[0x100_0000, 0x100_C000, 0x8000_0000, u32::MAX]),
        _ => past,
    }
}
