//! Cases for lists beyond the generator's own: long lists, and sweeps over
//! damage at every byte, lines in every order, addresses in four and six digits,
//! and lengths around the limits.

use crate::check::cases::{any_base, bases};
use sim7700::generate::{
    bank_programs, digit_lists, in_four, read_case, rewritten, write_case, ReadCase, Rng, WriteCase,
};
use sim7700::marks::{well_formed, RESET_MARK};
use sim7700::numbers::MAX_IMAGE;
use sim7700::write_list;

/// A case of the generator, seldom a long one.
pub fn drawn_read(rng: &mut Rng) -> ReadCase {
    match rng.below(2_000) {
        0 => long_read(rng),
        _ => read_case(rng),
    }
}

/// A case of the generator, seldom a long one.
pub fn drawn_write(rng: &mut Rng) -> WriteCase {
    match rng.below(2_000) {
        0 => long_write(rng),
        _ => write_case(rng),
    }
}

/// A long list, some of them in four digits, half of them with a byte changed.
fn long_read(rng: &mut Rng) -> ReadCase {
    let mut marked = long(rng);
    let old = rng.chance(1, 4);
    if old && rng.chance(1, 2) {
        // Where it fits, if it can.
        marked.base = (marked.base & 0xFF_0000) | (0x1_0000 - marked.marks.len()) as u32;
        marked.reset = marked.base;
    }
    let mut text = marked.list();
    if old {
        text = in_four(&text);
    }
    if rng.chance(1, 2) {
        let at = rng.index(text.len());
        text[at] ^= 1 << rng.below(8);
    }
    ReadCase {
        text,
        marks_len: marked.marks.len(),
    }
}

/// Marks of a long list, half of them with one changed; a page that fits, or
/// one a little short.
fn long_write(rng: &mut Rng) -> WriteCase {
    let mut marked = long(rng);
    let page_len = marked.list().len() - rng.index(2);
    if rng.chance(1, 2) {
        let at = rng.index(marked.marks.len());
        marked.marks[at] ^= 1 << rng.below(8);
    }
    marked.with_page(page_len)
}

fn long(rng: &mut Rng) -> Marked {
    let length = match rng.below(4) {
        0 => MAX_IMAGE,
        _ => 2_000 + rng.index(MAX_IMAGE - 2_000),
    };
    every_start(rng, length)
}

/// Marks of good form, with their base and reset.
pub struct Marked {
    pub marks: Vec<u8>,
    pub base: u32,
    pub reset: u32,
}

impl Marked {
    /// The list, as the simulator writes it.
    pub fn list(&self) -> Vec<u8> {
        let mut page = vec![0; LINE * self.marks.len() + 22];
        let answer = write_list(&self.marks, self.base, self.reset, &mut page);
        assert_eq!(answer & 0xFF, 0, "not written");
        page.truncate((answer >> 8) as usize);
        page
    }

    fn with_page(self, page_len: usize) -> WriteCase {
        WriteCase {
            marks: self.marks,
            base: self.base,
            reset: self.reset,
            page_len,
        }
    }
}

/// Marks with a start on every byte, the reset's the first.
pub fn every_start(rng: &mut Rng, length: usize) -> Marked {
    let starts: Vec<u8> = (1..=255).filter(|&mark| well_formed(mark)).collect();
    let base = any_base(rng, length);
    let mut marks: Vec<u8> = (0..length).map(|_| *rng.pick(&starts)).collect();
    marks[0] = RESET_MARK;
    Marked {
        marks,
        base,
        reset: base,
    }
}

/// Short markings that are swept: 01's case 1; a call of each kind, up to FFFFFF
/// and across a bank's end; one byte; the least of a length of three digits.
fn short() -> Vec<Marked> {
    let marked = |marks: &[u8], base: u32| Marked {
        marks: marks.to_vec(),
        base,
        reset: base,
    };
    let mut sparse = vec![0; 100];
    (sparse[0], sparse[99]) = (0x01, 0x07);
    vec![
        marked(&[0x01, 0, 0, 0x01, 0x03, 0, 0x03], 0x00_C000),
        marked(&[0x01, 0, 0, 0x03, 0x69, 0x35, 0x0B, 0x51], 0xFF_FFF8),
        marked(&[0x01, 0, 0, 0x03, 0x69, 0x35, 0x0B, 0x51], 0x12_FFFB),
        marked(&[0x01], 0x00_0000),
        marked(&sparse, 0x12_09AF),
    ]
}

/// Hands each case of the reader's sweeps to `visit`.
pub fn read_sweeps(mut visit: impl FnMut(&ReadCase)) {
    for marked in short() {
        let (text, marks_len) = (marked.list(), marked.marks.len());
        let mut visit_text = |text| visit(&ReadCase { text, marks_len });
        for text in [&text, &in_four(&text)] {
            every_damage(text, &mut visit_text);
            every_order(text, &mut visit_text);
        }
        every_mixture(&text, &mut visit_text);
        for marks_len in (0..marks_len + 3).chain(MAX_IMAGE - 1..MAX_IMAGE + 2) {
            visit(&ReadCase {
                text: text.clone(),
                marks_len,
            });
        }
    }
    digit_lists().iter().for_each(&mut visit);
    every_head(&mut visit);
    longest_order(&mut visit);
}

/// Four digits in some lines, six in the others, each choice of lines.
fn every_mixture(text: &[u8], visit: &mut impl FnMut(Vec<u8>)) {
    let lines = text.iter().filter(|&&byte| byte == b'\n').count();
    for choice in 0..1u32 << lines {
        let digits = |line: usize| if choice >> line & 1 == 1 { 4 } else { 6 };
        visit(rewritten(text, digits));
    }
}

/// Each byte changed to each other, each put in at each place, and the text
/// without a byte, cut off there, or beginning there.
pub fn every_damage(text: &[u8], visit: &mut impl FnMut(Vec<u8>)) {
    let mut visit = |parts: &[&[u8]]| visit(parts.concat());
    for at in 0..=text.len() {
        let (front, rest) = text.split_at(at);
        let behind = rest.get(1..).unwrap_or_default();
        for byte in 0..=255 {
            visit(&[front, &[byte], behind]);
            visit(&[front, &[byte], rest]);
        }
        visit(&[front, behind]);
        visit(&[front]);
        visit(&[rest]);
    }
}

/// Each two lines exchanged, and each line once more at each place.
pub fn every_order(text: &[u8], visit: &mut impl FnMut(Vec<u8>)) {
    let lines: Vec<&[u8]> = text.split_inclusive(|&byte| byte == b'\n').collect();
    let mut visit = |lines: &[&[u8]]| visit(lines.concat());
    for (one, &line) in lines.iter().enumerate() {
        for other in 0..lines.len() {
            let mut exchanged = lines.clone();
            exchanged.swap(one, other);
            visit(&exchanged);
            let mut twice = lines.clone();
            twice.insert(other, line);
            visit(&twice);
        }
    }
}

const LENGTHS: [&str; 18] = [
    "",
    "0",
    "00",
    "01",
    "1",
    "2",
    "9",
    "10",
    "99",
    "100",
    "16385",
    "65535",
    "65536",
    "065536",
    "65537",
    "99999",
    "100000",
    "18446744073709551617",
];
const BASES: [&str; 9] = [
    "000000", "00C000", "00FFFF", "120000", "FF0000", "FF0001", "FFFFFF", "0C000", "100C000",
];

/// First lines with numbers around their limits and overlong ones.
fn every_head(visit: &mut impl FnMut(&ReadCase)) {
    for base in BASES {
        let low = &base[base.len() - 4..];
        for length in LENGTHS {
            for reset in [
                "0000", low, "FFFF", "C00", "0C000", base, "000000", "FFFFFF",
            ] {
                every_first_start(base, length, reset, visit);
            }
        }
    }
}

/// A first line alone, and with a start at the image's first byte, at its last
/// one, and past it, in as many digits as the reset.
fn every_first_start(base: &str, length: &str, reset: &str, visit: &mut impl FnMut(&ReadCase)) {
    let digits = reset.len();
    let shown = &base[base.len().saturating_sub(digits)..];
    let first = usize::from_str_radix(shown, 16).expect("a base");
    let number = length.parse().unwrap_or(0usize).min(1 << 20);
    let head = format!("I\t{base}\t{length}\t{reset}\n");
    let with_start = |offset| {
        let address = first + offset;
        format!("{head}{address:0digits$X}\t0\t0\tN\t0\t0\n")
    };
    for text in [
        head.clone(),
        with_start(0),
        with_start(number.saturating_sub(1)),
        with_start(number),
    ] {
        for marks_len in [0, 1, number.min(MAX_IMAGE + 1)] {
            visit(&ReadCase {
                text: text.clone().into_bytes(),
                marks_len,
            });
        }
    }
}

/// Bytes of a start's line.
const LINE: usize = 17;

/// The longest list, then with two lines exchanged and with one in its next
/// one's place: at its beginning, around powers of two and at its end.
fn longest_order(visit: &mut impl FnMut(&ReadCase)) {
    let text = every_start(&mut Rng::new(1), MAX_IMAGE).list();
    let mut visit = |text| {
        visit(&ReadCase {
            text,
            marks_len: MAX_IMAGE,
        })
    };
    let first = text.len() - LINE * MAX_IMAGE;
    for line in [0, 255, 4_095, 4_368, 32_767, MAX_IMAGE - 2] {
        let at = first + LINE * line;
        let mut exchanged = text.clone();
        exchanged[at..at + 2 * LINE].rotate_left(LINE);
        visit(exchanged);
        let mut twice = text.clone();
        twice.copy_within(at..at + LINE, at + LINE);
        visit(twice);
    }
    visit(text);
}

/// Hands each case of the writer's sweeps to `visit`.
pub fn write_sweeps(mut visit: impl FnMut(&WriteCase)) {
    for marked in short() {
        let exact = marked.list().len();
        let mut case = marked.with_page(0);
        for page_len in 0..exact + 3 {
            case.page_len = page_len;
            visit(&case);
        }
        // Room for a start more.
        case.page_len = exact + LINE;
        every_mark(case, &mut visit);
    }
    for program in bank_programs() {
        let marked = Marked {
            marks: program.marks,
            base: program.base,
            reset: program.reset,
        };
        let exact = marked.list().len();
        visit(&marked.with_page(exact));
    }
    every_place(&mut visit);
    longest(&mut visit);
}

/// Each mark byte at each place.
fn every_mark(mut case: WriteCase, visit: &mut impl FnMut(&WriteCase)) {
    for at in 0..case.marks.len() {
        let before = case.marks[at];
        for mark in 0..=255 {
            case.marks[at] = mark;
            visit(&case);
        }
        case.marks[at] = before;
    }
}

/// Images of lengths around powers of ten and the limit, at bases around the
/// ends of banks.
fn every_place(visit: &mut impl FnMut(&WriteCase)) {
    let lengths = [0, 1, 9, 10, 99, 100, 999, 1_000, 9_999, 10_000];
    for length in lengths.into_iter().chain(MAX_IMAGE - 1..MAX_IMAGE + 2) {
        let mut marks = vec![0; length];
        for mark in marks.iter_mut().step_by(length.saturating_sub(1).max(1)) {
            *mark = RESET_MARK;
        }
        let others = [0xFF_FFFF, u32::MAX];
        for base in bases(length as u32).into_iter().chain(others) {
            every_reset(&marks, base, visit);
        }
    }
}

/// Resets in front of the image, at its first byte and its last, behind it, and
/// in other banks.
fn every_reset(marks: &[u8], base: u32, visit: &mut impl FnMut(&WriteCase)) {
    let end = base.wrapping_add(marks.len() as u32);
    let beside = [base.wrapping_sub(1), base, end.wrapping_sub(1), end];
    let others = [base & 0xFFFF, base ^ 0x1_0000, base | 0x100_0000, u32::MAX];
    for reset in beside.into_iter().chain(others) {
        visit(&WriteCase {
            marks: marks.to_vec(),
            base,
            reset,
            page_len: 80,
        });
    }
}

/// The longest list, its page exact, a byte short and a byte long.
fn longest(visit: &mut impl FnMut(&WriteCase)) {
    for more in [0, 1, 2] {
        let marked = every_start(&mut Rng::new(1), MAX_IMAGE);
        let exact = marked.list().len();
        visit(&marked.with_page(exact - 1 + more));
    }
}
