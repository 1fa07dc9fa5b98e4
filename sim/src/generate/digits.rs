//! Lists by the digits of their addresses (02, R-7): wholly in six, wholly in
//! four as before, and all else.

use super::builds::at;
use super::lists::{head_line, starts_of};
use super::{BuildCase, ReadCase};
use crate::numbers::in_one_bank;

/// A list with the address of each line in so many digits, the reset's that of
/// line 0: its last digits, with zeros before them if they are too few. A line
/// without the field stays.
pub fn rewritten(list: &[u8], digits: impl Fn(usize) -> usize) -> Vec<u8> {
    with_digits(list, |line| if line == 0 { 3 } else { 0 }, digits)
}

/// A routine list likewise.
pub fn routines_in(list: &[u8], digits: impl Fn(usize) -> usize) -> Vec<u8> {
    with_digits(list, |_| 0, digits)
}

fn with_digits(
    list: &[u8],
    field: impl Fn(usize) -> usize,
    digits: impl Fn(usize) -> usize,
) -> Vec<u8> {
    let mut text = Vec::new();
    for (line, bytes) in list.split_inclusive(|&b| b == b'\n').enumerate() {
        let mut fields: Vec<Vec<u8>> = bytes.split(|&b| b == b'\t').map(<[u8]>::to_vec).collect();
        if let Some(address) = fields.get_mut(field(line)) {
            in_digits(address, digits(line));
        }
        text.extend(fields.join(&b'\t'));
    }
    text
}

/// A list as before R-7.
pub fn in_four(list: &[u8]) -> Vec<u8> {
    rewritten(list, |_| 4)
}

fn in_digits(field: &mut Vec<u8>, digits: usize) {
    let end = field.iter().position(|&b| b == b'\n');
    let have = end.unwrap_or(field.len());
    if have > digits {
        field.drain(..have - digits);
    } else {
        field.splice(..0, vec![b'0'; digits - have]);
    }
}

/// Marks, their base, and the offset of the reset.
type Marked = (&'static [u8], u32, u32);

/// In one bank, from its first byte on, up to its last one; across its end with
/// starts on both sides, on one alone, and on none; up to FFFFFF and past it.
const MARKED: [Marked; 11] = [
    (&[0x01, 0, 0x0B, 0x77], 0xAB_CDEA, 0),
    (&[0x01, 0x03], 0x13_0000, 0),
    (&[0x09, 0, 0x01], 0x12_FFFD, 2),
    (&[0x01, 0, 0x05, 0x31], 0x12_FFFE, 0),
    (&[0x01, 0x03, 0, 0], 0x12_FFFE, 0),
    (&[0, 0, 0x01, 0x05], 0x12_FFFE, 2),
    (&[0, 0], 0x12_FFFF, 0),
    (&[0, 0], 0x12_C000, 0),
    (&[0x01, 0, 0x09], 0xFF_FFFD, 0),
    (&[0x01, 0x03, 0], 0xFF_FFFE, 0),
    (&[0, 0], 0xFF_FFFF, 0),
];

/// The lists of some markings with three to seven digits in the reset, and as
/// many in all starts; with one line in other digits than the rest; and for
/// marks that are a byte longer.
pub fn digit_lists() -> Vec<ReadCase> {
    let mut cases = Vec::new();
    for (marks, base, reset) in MARKED {
        let head = head_line(base, &marks.len().to_string(), base + reset);
        let list = head + &starts_of(marks, base);
        let lines = list.lines().count();
        let mut add = |marks_len: usize, digits: &dyn Fn(usize) -> usize| {
            let text = rewritten(list.as_bytes(), digits);
            cases.push(ReadCase { text, marks_len });
        };
        for first in 3..=7 {
            for others in 3..=7 {
                add(marks.len(), &|line| if line == 0 { first } else { others });
            }
        }
        for digits in [4, 6] {
            add(marks.len() + 1, &|_| digits);
            for (odd, line) in [4, 5, 6, 7]
                .iter()
                .flat_map(|d| (0..lines).map(move |l| (*d, l)))
            {
                add(marks.len(), &|l| if l == line { odd } else { digits });
            }
        }
    }
    cases.sort_by(|a, b| (&a.text, a.marks_len).cmp(&(&b.text, b.marks_len)));
    cases.dedup();
    cases
}

/// The same marks as those of routines in images of STP: with four digits and
/// six in all lines, with one line in six and the others in four, and across a
/// bank's end for marks that are a byte longer; the first with three to seven.
pub fn digit_routines() -> Vec<BuildCase> {
    let mut cases = Vec::new();
    for (marks, base, reset) in MARKED {
        let program = at(base, base + reset, vec![0xDB; marks.len()]);
        let case = BuildCase::listing(program, marks);
        let lines = marks.iter().filter(|&&mark| mark != 0).count();
        let with = |digits: &dyn Fn(usize) -> usize| BuildCase {
            routines: routines_in(&case.routines, digits),
            ..case.clone()
        };
        let counts: &[usize] = match cases.len() {
            0 => &[3, 4, 5, 6, 7],
            _ => &[4, 6],
        };
        cases.extend(counts.iter().map(|digits| with(&|_| *digits)));
        for line in 0..lines {
            cases.push(with(&|l| if l == line { 6 } else { 4 }));
        }
        if lines > 1 && !in_one_bank(marks.len(), base) {
            let mut longer = with(&|_| 4);
            longer.marks.push(0);
            cases.push(longer);
        }
    }
    cases.sort_by(|a, b| (&a.routines, a.base).cmp(&(&b.routines, b.base)));
    cases.dedup();
    cases
}
