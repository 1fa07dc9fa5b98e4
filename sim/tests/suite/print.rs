//! The printed page (02, R-1): the check's own refusals, then 15.

use sim7700::codes::{entry_of, page_of};
use sim7700::generate::{self, CheckCase, PrintCase, Rng};
use sim7700::listing::listing;
use sim7700::print;
use std::collections::{BTreeMap, BTreeSet};

/// An accepted image with its page.
fn printed(image: &[u8], marks: &[u8], base: u32) -> String {
    let rows = marks.iter().filter(|m| **m != 0).count();
    let mut page = vec![0x55; 36 * rows];
    let answer = print(image, marks, base, base, &mut page);
    assert_eq!(answer, 36 * rows as u64 * 256, "{image:02X?}");
    String::from_utf8(page).unwrap()
}

/// The row of SEM shows m as it is before it.
#[test]
fn case_1_is_printed() {
    let image = [0x49, 0x34, 0x12, 0xF8, 0x49, 0x56, 0xDB];
    let page = printed(&image, &[1, 0, 0, 1, 3, 0, 3], 0xC000);
    let rows = "00C000 49 34 12          EOR  0 0 N\n\
                00C003 F8                SEM  0 0 N\n\
                00C004 49 56             EOR  1 0 N\n\
                00C006 DB                STP  1 0 N\n";
    assert_eq!(page, rows);
}

/// The row of one instruction at offset 2 behind SEP, and of STP behind it.
fn row_of(bytes: &[u8], widths: u8) -> String {
    let image = [&[0xE2, widths], bytes, &[0xDB]].concat();
    let mark = 1 | (widths & 0x20) >> 4 | (widths & 0x10) >> 2;
    let mut marks = vec![0; image.len()];
    (marks[0], marks[2]) = (1, mark);
    marks[image.len() - 1] = mark;
    let page = printed(&image, &marks, 0x12_ABCD);
    page.lines().nth(1).unwrap().to_string()
}

/// Bytes, widths named by SEP, and the row behind its address.
#[rustfmt::skip]
const ROWS: [(&[u8], u8, &str); 16] = [
    (&[0xEA],                   0x00, "EA                NOP  0 0 N"),
    (&[0x48],                   0x30, "48                PHA  1 1 N"),
    (&[0xE2, 0x00],             0x10, "E2 00             SEP  0 1 N"),
    (&[0xA9, 0xFF],             0x20, "A9 FF             LDA  1 0 N"),
    (&[0xA9, 0xFF, 0xEE],       0x10, "A9 FF EE          LDA  0 1 N"),
    (&[0xA2, 0x0A],             0x10, "A2 0A             LDX  0 1 N"),
    (&[0xA2, 0x0A, 0xB0],       0x20, "A2 0A B0          LDX  1 0 N"),
    (&[0x67, 0x9A],             0x30, "67 9A             ADCL 1 1 N"),
    (&[0x8F, 1, 2, 3],          0x00, "8F 01 02 03       STA  0 0 N"),
    (&[0x24, 1, 2, 0],          0x20, "24 01 02 00       BBS  1 0 N"),
    (&[0x34, 1, 2, 3, 0],       0x10, "34 01 02 03 00    BBC  0 1 N"),
    (&[0x3C, 1, 2, 3, 4, 0],    0x00, "3C 01 02 03 04 00 BBC  0 0 N"),
    (&[0x42, 0x48],             0x00, "42 48             PHB  0 0 N"),
    (&[0x42, 0x7F, 1, 2, 3],    0x20, "42 7F 01 02 03    ADC  1 0 N"),
    (&[0x89, 0x28],             0x00, "89 28             XAB  0 0 N"),
    (&[0x89, 0x49, 0xFE, 0xDC], 0x10, "89 49 FE DC       RLA  0 1 N"),
];

/// One to six bytes, plain and behind both prefixes, at the widths that make
/// a form narrow and wide.
#[test]
fn rows_of_one_to_six_bytes() {
    for (bytes, widths, row) in ROWS {
        assert_eq!(row_of(bytes, widths), format!("12ABCF {row}"));
    }
}

/// A letter for each kind, and m and x of the start, not of the return.
#[test]
fn kinds_and_widths() {
    // STP; then RTS and RTL at each pair of widths, that of the return.
    let mut image = vec![0xDB];
    let mut marks = vec![0x01];
    for (code, kind) in [(0x60, 0x08), (0x6B, 0x10)] {
        for widths in [0, 2, 4, 6] {
            image.push(code);
            marks.push(1 | widths | kind | widths << 4);
        }
    }
    // NOP at x=1 in a routine that returns at m=1: no row shows the latter.
    image.extend([0xEA, 0xC2, 0x30, 0xE2, 0x20, 0x60]);
    marks.extend([0x2D, 0x2D, 0, 0x29, 0, 0x2B]);
    let page = printed(&image, &marks, 0);
    let ends: Vec<&str> = page.lines().map(|row| &row[25..]).collect();
    let wanted = [
        "STP  0 0 N",
        "RTS  0 0 S",
        "RTS  1 0 S",
        "RTS  0 1 S",
        "RTS  1 1 S",
        "RTL  0 0 L",
        "RTL  1 0 L",
        "RTL  0 1 L",
        "RTL  1 1 L",
        "NOP  0 1 S",
        "CLP  0 1 S",
        "SEP  0 0 S",
        "RTS  1 0 S",
    ];
    assert_eq!(ends, wanted);
}

/// The whole address, up to a bank's end and to FFFFFF.
#[test]
fn addresses_have_six_digits() {
    for (base, first, last) in [
        (0x00_0000, "000000", "000003"),
        (0x00_FFFC, "00FFFC", "00FFFF"),
        (0x00_FFFD, "00FFFD", "010000"),
        (0x01_0000, "010000", "010003"),
        (0x12_FFFF, "12FFFF", "130002"),
        (0x9A_BCDE, "9ABCDE", "9ABCE1"),
        (0xFF_FFFC, "FFFFFC", "FFFFFF"),
    ] {
        let page = printed(&[0x42, 0x0A, 0xEA, 0xCB], &[1, 0, 1, 1], base);
        let addresses: Vec<&str> = page.lines().map(|row| &row[..6]).collect();
        assert_eq!((addresses[0], addresses[2]), (first, last));
    }
}

/// The rows of a case by another way: columns put together as texts.
fn rows(case: &CheckCase) -> String {
    let words = words();
    let mut page = String::new();
    for (at, &mark) in case.marks.iter().enumerate().filter(|(_, m)| **m != 0) {
        let prefix = page_of(case.image[at]);
        let code = case.image[at + (prefix > 0) as usize];
        let (m, x) = (mark >> 1 & 1, mark >> 2 & 1);
        let length = entry_of(prefix, code).length(m == 1, x == 1);
        let bytes = &case.image[at..at + length];
        let pairs: Vec<String> = bytes.iter().map(|b| format!("{b:02X}")).collect();
        let word = &words[&(prefix, code)];
        let kind = ["N", "S", "L"][(mark >> 3 & 3) as usize];
        let (address, pairs) = (case.base as usize + at, pairs.join(" "));
        page += &format!("{address:06X} {pairs:<17} {word:<4} {m} {x} {kind}\n");
    }
    page
}

#[test]
fn drawn_pages_have_the_columns() {
    let mut rng = Rng::new(31);
    for _ in 0..3_000 {
        let case = PrintCase::exact(generate::accepted(&mut rng));
        let (answer, page) = case.answer();
        assert_eq!(answer, (page.len() as u64) << 8);
        assert_eq!(String::from_utf8(page).unwrap(), rows(&case.checked));
    }
}

/// The first words of the syntax on the instructions' own pages (manual 4.2),
/// by page and code: a form of A stands behind 42 with B.
pub fn words() -> BTreeMap<(usize, u8), String> {
    let mut words = BTreeMap::new();
    for line in include_str!("data/syntax.txt").lines() {
        let (codes, syntax) = line.split_once('|').unwrap();
        let word = syntax.split(' ').next().unwrap().to_string();
        let number = |hex: &str| u8::from_str_radix(hex, 16).unwrap();
        let place = match codes.split_once(' ') {
            None => (0, number(codes)),
            Some(("42", code)) => (1, number(code)),
            Some((_, code)) => (2, number(code)),
        };
        if syntax.split([' ', ',', ';']).nth(1) == Some("A") {
            words.insert((1, place.1), word.clone());
        }
        assert!(words.insert(place, word).is_none(), "{line}");
    }
    words
}

/// Each carried form's word, in a program that has it at each pair of widths.
#[test]
fn words_are_those_of_the_pages() {
    let words = words();
    let mut seen = BTreeSet::new();
    for checked in generate::every_code(&mut Rng::new(4)) {
        let case = PrintCase::exact(checked);
        let page = String::from_utf8(case.answer().1).unwrap();
        let marks = case.checked.marks.iter().enumerate();
        for ((at, mark), row) in marks.filter(|(_, m)| **m != 0).zip(page.lines()) {
            let prefix = page_of(case.checked.image[at]);
            let code = case.checked.image[at + (prefix > 0) as usize];
            let word = row[25..29].trim_end();
            assert_eq!(word, words[&(prefix, code)], "{row}");
            seen.insert((prefix, code, mark & 6));
        }
    }
    assert_eq!(seen.len(), 4 * 380);
}

/// The forms that begin with another word than the mnemonic: 19 on the plain
/// page and 16 behind 42, each with an L behind it.
#[test]
fn long_forms_have_an_l() {
    let words = words();
    let mut long = [0; 3];
    for line in listing().lines().filter(|l| l.ends_with("yes")) {
        let f: Vec<&str> = line.split(' ').collect();
        let prefix = ["--", "42", "89"].iter().position(|p| *p == f[0]).unwrap();
        let word = &words[&(prefix, u8::from_str_radix(f[1], 16).unwrap())];
        if word != f[2] {
            assert_eq!(*word, format!("{}L", f[2]));
            long[prefix] += 1;
        }
    }
    assert_eq!(long, [19, 16, 0]);
}

/// The byte columns of all rows, joined, are the bytes that instructions
/// cover: all but those in gaps.
#[test]
fn byte_columns_restore_the_covered_bytes() {
    let mut rng = Rng::new(8);
    let mut gaps = 0;
    for _ in 0..2_000 {
        let case = PrintCase::exact(generate::accepted(&mut rng));
        let CheckCase { image, marks, .. } = &case.checked;
        let mut covered = Vec::new();
        let mut end = 0;
        for at in 0..image.len() {
            if marks[at] != 0 {
                let prefix = page_of(image[at]);
                let code = image[at + (prefix > 0) as usize];
                let (m, x) = (marks[at] & 2 != 0, marks[at] & 4 != 0);
                end = at + entry_of(prefix, code).length(m, x);
            }
            if at < end {
                covered.push(image[at]);
            } else {
                gaps += 1;
            }
        }
        let page = String::from_utf8(case.answer().1).unwrap();
        let pairs = page.lines().flat_map(|row| row[7..24].split_whitespace());
        let bytes: Vec<u8> = pairs
            .map(|pair| u8::from_str_radix(pair, 16).unwrap())
            .collect();
        assert_eq!(bytes, covered);
    }
    assert!(gaps > 1_000, "{gaps}");
}

/// 15 one byte short, with nothing written; past the rows all stays.
#[test]
fn pages_short_exact_and_long() {
    let image = [0xA9, 0x01, 0x02, 0xDB];
    let marks = [1, 0, 0, 1];
    let rows = printed(&image, &marks, 0xC000);
    for length in 0..=110 {
        let mut page = vec![0x55; length];
        let answer = print(&image, &marks, 0xC000, 0xC000, &mut page);
        if length < 72 {
            assert_eq!(answer, 15);
            assert!(page.iter().all(|&b| b == 0x55), "{length}");
        } else {
            assert_eq!(answer, 72 << 8);
            assert_eq!(&page[..72], rows.as_bytes());
            assert!(page[72..].iter().all(|&b| b == 0x55), "{length}");
        }
    }
}

/// 65,536 rows, exact and a byte short.
#[test]
fn the_longest_page() {
    let mut image = vec![0xEA; 65_536];
    image[65_535] = 0xDB;
    let marks = vec![1; 65_536];
    for (base, last) in [(0xFF_0000, "FFFFFF"), (0x12_8000, "137FFF")] {
        let page = printed(&image, &marks, base);
        assert_eq!(page.len(), 2_359_296);
        assert!(page.ends_with(&format!("{last} DB                STP  0 0 N\n")));
    }
    let mut short = vec![0x55; 2_359_295];
    assert_eq!(print(&image, &marks, 0xFF_0000, 0xFF_0000, &mut short), 15);
    assert!(short.iter().all(|&b| b == 0x55));
}

/// Image, marks, base, reset, and the answer: the number, from bit 8 on the
/// offset.
pub type Refused = (&'static [u8], &'static [u8], u32, u32, u64);

#[rustfmt::skip]
pub const REFUSED: [Refused; 15] = [
    (&[],                        &[],              0xC000,     0xC000,   1),
    (&[0xDB],                    &[1, 0],          u32::MAX,   0xC000,   1),
    (&[0xEA, 0xDB],              &[1, 1],          0xFF_FFFF,  0xFF_FFFF, 2),
    (&[0xDB],                    &[1],             0x100_0000, 0,        2),
    (&[0xDB],                    &[1],             0xC000,     0x1_C000, 3),
    (&[0xDB],                    &[1],             0xC000,     0x100_C000, 3),
    (&[0xDB],                    &[1],             0xC000,     0xC001,   3),
    (&[0xDB, 0xDB, 0xDB],        &[1, 0, 0x81],    0xC000,     0xC001,   4 | 2 << 8),
    (&[0xEA, 0x00],              &[1, 1],          0xC000,     0xC000,   5 | 1 << 8),
    (&[0xEA, 0xEA, 0x42],        &[1, 1, 1],       0xC000,     0xC000,   6 | 2 << 8),
    (&[0xEA, 0xA9, 0xDB, 0xDB],  &[1, 1, 1, 0],    0xC000,     0xC000,   7 | 1 << 8),
    (&[0x20, 4, 0xC0, 0xDB, 0x60], &[1, 0, 0, 0, 9], 0xC000,   0xC000,   8),
    (&[0x20, 4, 0xC0, 0xDB, 0x60], &[1, 0, 0, 1, 1], 0xC000,   0xC000,   9),
    (&[0xEA, 0xF8, 0xDB],        &[1, 1, 1],       0xC000,     0xC000,   9 | 1 << 8),
    (&[0xEA, 0xDB, 0x60],        &[1, 1, 0x11],    0xC000,     0xC000,   10 | 2 << 8),
];

/// Each of the check's numbers with its offset, whatever the page is.
#[test]
fn the_checks_own_refusals_go_first() {
    for (image, marks, base, reset, answer) in REFUSED {
        for length in [0, 35, 36, 72, 200] {
            let mut page = vec![0x55; length];
            assert_eq!(print(image, marks, base, reset, &mut page), answer);
            assert!(page.iter().all(|&b| b == 0x55), "{answer:X}");
        }
    }
}

/// An offset past 255 has its bits above 16 too.
#[test]
fn offsets_of_16_bits() {
    let mut image = vec![0xEA; 65_536];
    image[65_535] = 0x00;
    let marks = vec![1; 65_536];
    let answer = print(&image, &marks, 0x12_8000, 0x12_8000, &mut []);
    assert_eq!(answer, 5 | 65_535 << 8);
}
