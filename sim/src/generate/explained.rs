//! Images made by hand with the line that explains them: every number, and
//! each cause of it.

use super::CheckCase;

/// Image, marks, base, reset and line.
pub type Explained = (&'static [u8], &'static [u8], u32, u32, &'static str);

/// The case of an explained image.
pub fn case_of(&(image, marks, base, reset, _): &Explained) -> CheckCase {
    CheckCase {
        image: image.to_vec(),
        marks: marks.to_vec(),
        base,
        reset,
    }
}

/// All of them.
pub fn explained() -> impl Iterator<Item = &'static Explained> {
    let tables = [
        BEFORE_STARTS,
        MARKS,
        CODES,
        CUT_OFFS,
        OVERLAPS,
        FLOWS,
        SUCCESSORS,
        CALLS,
        RETURNS,
    ];
    tables.into_iter().flatten()
}

const C000: u32 = 0xC000;

/// Accepted, 1, 2 and 3.
#[rustfmt::skip]
const BEFORE_STARTS: &[Explained] = &[
    (&[0x49, 0x34, 0x12, 0xF8, 0x49, 0x56, 0xDB], &[1, 0, 0, 1, 3, 0, 3], C000, C000, "accepted"),
    (&[0xDB], &[1], 0, 0, "accepted"),
    (&[0xDB], &[1], 0xFF_FFFF, 0xFF_FFFF, "accepted"),
    // A call of itself, and one of the address after it.
    (&[0xDB, 0x20, 0x01, 0xC0, 0xDB], &[1, 0x29, 0, 0, 0x2B], C000, C000, "accepted"),
    (&[0xDB, 0x20, 0x04, 0xC0, 0x60], &[1, 0x09, 0, 0, 0x09], C000, C000, "accepted"),
    (&[], &[], C000, C000, "1 length: image 0, marks 0"),
    (&[0xDB], &[], C000, C000, "1 length: image 1, marks 0"),
    (&[], &[1], C000, C000, "1 length: image 0, marks 1"),
    (&[0xEA, 0xDB], &[1, 1, 0], C000, C000, "1 length: image 2, marks 3"),
    (&[0xDB; 10], &[1; 9], C000, C000, "1 length: image 10, marks 9"),
    // 1 goes before 2, 4 and 3.
    (&[0xDB], &[0xFF, 0xFF], u32::MAX, 0, "1 length: image 1, marks 2"),
    (&[0xDB], &[1], 0x100_0000, 0x100_0000, "2 base: 01000000, length 1"),
    (&[0xEA, 0xDB], &[1, 1], 0xFF_FFFF, 0xFF_FFFF, "2 base: 00FFFFFF, length 2"),
    (&[0xDB; 12], &[1; 12], 0xFF_FFF5, 0xFF_FFF5, "2 base: 00FFFFF5, length 12"),
    // 2 goes before 4 and 3.
    (&[0xDB], &[0x80], u32::MAX, 0, "2 base: FFFFFFFF, length 1"),
    // A start with another mark.
    (&[0xDB], &[0x03], C000, C000, "3 reset: 0000C000 must be 0 0 N 0 0, is 1 0 N 0 0"),
    (&[0xDB], &[0x05], C000, C000, "3 reset: 0000C000 must be 0 0 N 0 0, is 0 1 N 0 0"),
    (&[0xDB], &[0x07], C000, C000, "3 reset: 0000C000 must be 0 0 N 0 0, is 1 1 N 0 0"),
    (&[0xDB], &[0x09], C000, C000, "3 reset: 0000C000 must be 0 0 N 0 0, is 0 0 S 0 0"),
    (&[0xDB], &[0x11], C000, C000, "3 reset: 0000C000 must be 0 0 N 0 0, is 0 0 L 0 0"),
    (&[0xDB], &[0x29], C000, C000, "3 reset: 0000C000 must be 0 0 N 0 0, is 0 0 S 1 0"),
    (&[0xDB], &[0x51], C000, C000, "3 reset: 0000C000 must be 0 0 N 0 0, is 0 0 L 0 1"),
    (&[0xEA, 0xDB], &[1, 0x77], 0x12_FFFF, 0x13_0000, "3 reset: 00130000 must be 0 0 N 0 0, is 1 1 L 1 1"),
    // No start there.
    (&[0xDB, 0xDB], &[1, 0], C000, 0xC001, "3 reset: 0000C001 must be 0 0 N 0 0, is no start"),
    (&[0xDB, 0xDB], &[1, 0], 0x12_FFFF, 0x13_0000, "3 reset: 00130000 must be 0 0 N 0 0, is no start"),
    (&[0xDB, 0xDB], &[1, 0], 0xFF_FFFE, 0xFF_FFFF, "3 reset: 00FFFFFF must be 0 0 N 0 0, is no start"),
    // Outside: beside the image, in other banks, and above FFFFFF.
    (&[0xDB], &[1], C000, 0xC001, "3 reset: 0000C001 must be 0 0 N 0 0, is outside the image"),
    (&[0xDB], &[1], C000, 0xBFFF, "3 reset: 0000BFFF must be 0 0 N 0 0, is outside the image"),
    (&[0xDB], &[1], 0x12_C000, 0xC000, "3 reset: 0000C000 must be 0 0 N 0 0, is outside the image"),
    (&[0xDB], &[1], 0x12_FFFF, 0x13_0000, "3 reset: 00130000 must be 0 0 N 0 0, is outside the image"),
    (&[0xDB], &[1], 0xFF_FFFF, 0, "3 reset: 00000000 must be 0 0 N 0 0, is outside the image"),
    (&[0xDB], &[1], 0xFF_FFFF, 0x100_0000, "3 reset: 01000000 must be 0 0 N 0 0, is outside the image"),
    (&[0xDB], &[1], C000, 0x100_C000, "3 reset: 0100C000 must be 0 0 N 0 0, is outside the image"),
    // 3 goes before every start.
    (&[0x00], &[1], C000, u32::MAX, "3 reset: FFFFFFFF must be 0 0 N 0 0, is outside the image"),
];

/// 4: marks with one part that is not of the form, and with several.
#[rustfmt::skip]
const MARKS: &[Explained] = &[
    (&[0xDB, 0], &[1, 0x02], C000, C000, "4 mark: 00C001 has 02: bits without a start"),
    (&[0xDB, 0], &[1, 0x04], C000, C000, "4 mark: 00C001 has 04: bits without a start"),
    (&[0xDB, 0], &[1, 0x18], C000, C000, "4 mark: 00C001 has 18: bits without a start"),
    (&[0xDB, 0], &[1, 0x60], C000, C000, "4 mark: 00C001 has 60: bits without a start"),
    (&[0xDB, 0], &[1, 0x80], C000, C000, "4 mark: 00C001 has 80: bits without a start"),
    (&[0xDB, 0], &[1, 0xFE], C000, C000, "4 mark: 00C001 has FE: bits without a start"),
    (&[0xDB, 0], &[1, 0x81], C000, C000, "4 mark: 00C001 has 81: bit 7"),
    (&[0xDB, 0], &[1, 0x89], C000, C000, "4 mark: 00C001 has 89: bit 7"),
    (&[0xDB, 0], &[1, 0x99], C000, C000, "4 mark: 00C001 has 99: bit 7"),
    (&[0xDB, 0], &[1, 0xA1], C000, C000, "4 mark: 00C001 has A1: bit 7"),
    (&[0xDB, 0], &[1, 0xFF], C000, C000, "4 mark: 00C001 has FF: bit 7"),
    (&[0xDB, 0], &[1, 0x19], C000, C000, "4 mark: 00C001 has 19: kind 3"),
    (&[0xDB, 0], &[1, 0x7F], C000, C000, "4 mark: 00C001 has 7F: kind 3"),
    (&[0xDB, 0], &[1, 0x21], C000, C000, "4 mark: 00C001 has 21: return widths of kind N"),
    (&[0xDB, 0], &[1, 0x41], C000, C000, "4 mark: 00C001 has 41: return widths of kind N"),
    (&[0xDB, 0], &[1, 0x67], C000, C000, "4 mark: 00C001 has 67: return widths of kind N"),
    // The lowest of them, at a bank's end, at 000000 and at FFFFFF.
    (&[0xDB; 3], &[0x61, 0x02, 0x80], C000, C000, "4 mark: 00C000 has 61: return widths of kind N"),
    (&[0xDB; 3], &[1, 0x19, 0x02], 0x12_FFFE, 0x12_FFFE, "4 mark: 12FFFF has 19: kind 3"),
    (&[0xDB; 3], &[1, 0, 0x02], 0x12_FFFE, 0x12_FFFE, "4 mark: 130000 has 02: bits without a start"),
    (&[0xDB], &[0xFE], 0, 0, "4 mark: 000000 has FE: bits without a start"),
    // 4 goes before 3 and before every start.
    (&[0x00, 0x00], &[3, 0x81], 0xFF_FFFE, 0, "4 mark: FFFFFF has 81: bit 7"),
];

/// 5: codes that are assigned but not carried, then those that are not
/// assigned.
#[rustfmt::skip]
const CODES: &[Explained] = &[
    (&[0x00], &[1], C000, C000, "5 code: 00C000 00 BRK: not carried"),
    (&[0x28, 0xDB], &[1, 1], C000, C000, "5 code: 00C000 28 PLP: not carried"),
    (&[0xEA, 0x40, 0xDB], &[1, 1, 1], C000, C000, "5 code: 00C001 40 RTI: not carried"),
    (&[0x44, 0x01, 0x02], &[1, 0, 0], C000, C000, "5 code: 00C000 44 MVP: not carried"),
    (&[0x54, 0x01, 0x02], &[1, 0, 0], C000, C000, "5 code: 00C000 54 MVN: not carried"),
    (&[0xEB, 0xFF], &[1, 0], C000, C000, "5 code: 00C000 EB PSH: not carried"),
    (&[0xFB, 0xFF], &[1, 0], C000, C000, "5 code: 00C000 FB PUL: not carried"),
    // Jumps and calls through memory; one of them is long.
    (&[0x6C, 0x00, 0xC0], &[1, 0, 0], C000, C000, "5 code: 00C000 6C JMP: not carried"),
    (&[0x7C, 0x00, 0xC0], &[1, 0, 0], C000, C000, "5 code: 00C000 7C JMP: not carried"),
    (&[0xDC, 0x00, 0xC0], &[1, 0, 0], C000, C000, "5 code: 00C000 DC JMPL: not carried"),
    (&[0xFC, 0x00, 0xC0], &[1, 0, 0], C000, C000, "5 code: 00C000 FC JSR: not carried"),
    // Behind 89, long pointers with an L, absolute long without.
    (&[0x89, 0x09, 1, 2], &[1, 0, 0, 0], C000, C000, "5 code: 00C000 89 09 MPY: not carried"),
    (&[0x89, 0x07, 1], &[1, 0, 0], C000, C000, "5 code: 00C000 89 07 MPYL: not carried"),
    (&[0x89, 0x17, 1], &[1, 0, 0], C000, C000, "5 code: 00C000 89 17 MPYL: not carried"),
    (&[0x89, 0x0F, 1, 2, 3], &[1, 0, 0, 0, 0], C000, C000, "5 code: 00C000 89 0F MPY: not carried"),
    (&[0x89, 0x32, 1], &[1, 0, 0], C000, C000, "5 code: 00C000 89 32 DIV: not carried"),
    (&[0x89, 0x27, 1], &[1, 0, 0], C000, C000, "5 code: 00C000 89 27 DIVL: not carried"),
    (&[0x89, 0x37, 1], &[1, 0, 0], C000, C000, "5 code: 00C000 89 37 DIVL: not carried"),
    (&[0x89, 0x3F, 1, 2, 3], &[1, 0, 0, 0, 0], C000, C000, "5 code: 00C000 89 3F DIV: not carried"),
    // Not assigned: the one plain code, and pairs, most of them with a code of
    // the plain page.
    (&[0xEA, 0x02, 0xDB], &[1, 1, 1], C000, C000, "5 code: 00C001 02 ---: not carried"),
    (&[0x42, 0x00, 0xDB], &[1, 0, 1], C000, C000, "5 code: 00C000 42 00 ---: not carried"),
    (&[0x42, 0x02, 0xDB], &[1, 0, 1], C000, C000, "5 code: 00C000 42 02 ---: not carried"),
    (&[0x42, 0x28, 0xDB], &[1, 0, 1], C000, C000, "5 code: 00C000 42 28 ---: not carried"),
    (&[0x42, 0xDC, 0xDB], &[1, 0, 1], C000, C000, "5 code: 00C000 42 DC ---: not carried"),
    (&[0x42, 0xEA, 0xDB], &[1, 0, 1], C000, C000, "5 code: 00C000 42 EA ---: not carried"),
    (&[0x89, 0x00, 0xDB], &[1, 0, 1], C000, C000, "5 code: 00C000 89 00 ---: not carried"),
    (&[0x89, 0x69, 0xDB], &[1, 0, 1], C000, C000, "5 code: 00C000 89 69 ---: not carried"),
    (&[0x89, 0xFF, 0xDB], &[1, 0, 1], C000, C000, "5 code: 00C000 89 FF ---: not carried"),
    // A prefix behind a prefix, also where a code would follow.
    (&[0x42, 0x42, 0xDB], &[1, 1, 1], C000, C000, "5 code: 00C000 42 42 ---: not carried"),
    (&[0x42, 0x89, 0x28], &[1, 0, 1], C000, C000, "5 code: 00C000 42 89 ---: not carried"),
    (&[0x89, 0x42, 0xA9], &[1, 0, 1], C000, C000, "5 code: 00C000 89 42 ---: not carried"),
    (&[0x89, 0x89], &[1, 0], 0x12_FFFF, 0x12_FFFF, "5 code: 12FFFF 89 89 ---: not carried"),
    // Without the bytes behind it, also where the image ends before them.
    (&[0xDC], &[1], 0x12_FFFF, 0x12_FFFF, "5 code: 12FFFF DC JMPL: not carried"),
    (&[0x54], &[1], 0xFF_FFFF, 0xFF_FFFF, "5 code: FFFFFF 54 MVN: not carried"),
    (&[0x89, 0x2F], &[1, 0], 0xFF_FFFE, 0xFF_FFFE, "5 code: FFFFFE 89 2F DIV: not carried"),
    (&[0x00, 0x00], &[1, 0], 0, 0, "5 code: 000000 00 BRK: not carried"),
    // At other widths, and before 7.
    (&[0xF8, 0x89, 0x09, 1], &[1, 3, 0, 0], C000, C000, "5 code: 00C001 89 09 MPY: not carried"),
    (&[0x89, 0x25, 1], &[1, 1, 1], C000, C000, "5 code: 00C000 89 25 DIV: not carried"),
];

/// 6: the code behind a prefix, and bytes of the operand.
#[rustfmt::skip]
const CUT_OFFS: &[Explained] = &[
    // The image ends behind a prefix.
    (&[0x42], &[1], C000, C000, "6 cut off: 00C000 42: the code is missing"),
    (&[0xEA, 0x89], &[1, 1], C000, C000, "6 cut off: 00C001 89: the code is missing"),
    (&[0xEA, 0x42], &[1, 1], 0x12_FFFF, 0x12_FFFF, "6 cut off: 130000 42: the code is missing"),
    (&[0x89], &[1], 0xFF_FFFF, 0xFF_FFFF, "6 cut off: FFFFFF 89: the code is missing"),
    (&[0x42], &[1], 0, 0, "6 cut off: 000000 42: the code is missing"),
    // It ends behind the code or behind part of the operand.
    (&[0xA9], &[1], C000, C000, "6 cut off: 00C000 A9 LDA: 2 missing"),
    (&[0xA9, 0x12], &[1, 0], C000, C000, "6 cut off: 00C000 A9 12 LDA: 1 missing"),
    (&[0xF8, 0xA9], &[1, 3], C000, C000, "6 cut off: 00C001 A9 LDA: 1 missing"),
    (&[0xF8, 0xA2], &[1, 3], C000, C000, "6 cut off: 00C001 A2 LDX: 2 missing"),
    (&[0x42, 0xA9], &[1, 0], C000, C000, "6 cut off: 00C000 42 A9 LDA: 2 missing"),
    (&[0x42, 0xA9, 0x34], &[1, 0, 0], C000, C000, "6 cut off: 00C000 42 A9 34 LDA: 1 missing"),
    (&[0x89, 0xC2], &[1, 0], C000, C000, "6 cut off: 00C000 89 C2 LDT: 1 missing"),
    (&[0x3C], &[1], C000, C000, "6 cut off: 00C000 3C BBC: 5 missing"),
    (&[0x3C, 1], &[1, 0], C000, C000, "6 cut off: 00C000 3C 01 BBC: 4 missing"),
    (&[0x3C, 1, 2], &[1, 0, 0], C000, C000, "6 cut off: 00C000 3C 01 02 BBC: 3 missing"),
    (&[0x3C, 1, 2, 3], &[1, 0, 0, 0], C000, C000, "6 cut off: 00C000 3C 01 02 03 BBC: 2 missing"),
    (&[0x3C, 1, 2, 3, 4], &[1, 0, 0, 0, 0], 0x12_FFFD, 0x12_FFFD, "6 cut off: 12FFFD 3C 01 02 03 04 BBC: 1 missing"),
    (&[0x42, 0x77], &[1, 0], 0xFF_FFFE, 0xFF_FFFE, "6 cut off: FFFFFE 42 77 ADCL: 1 missing"),
    (&[0x82, 0x00], &[1, 0], 0xFF_FFFE, 0xFF_FFFE, "6 cut off: FFFFFE 82 00 BRAL: 1 missing"),
    (&[0x22, 0x00, 0xC0], &[1, 0, 0], C000, C000, "6 cut off: 00C000 22 00 C0 JSRL: 1 missing"),
    (&[0x5C], &[1], 0xFF_FFFF, 0xFF_FFFF, "6 cut off: FFFFFF 5C JMPL: 3 missing"),
    // 6 goes before 7, and before 5 at a higher start.
    (&[0xA9, 0xEA], &[1, 1], C000, C000, "6 cut off: 00C000 A9 EA LDA: 1 missing"),
    (&[0xA9, 0x00], &[1, 1], C000, C000, "6 cut off: 00C000 A9 00 LDA: 1 missing"),
];

/// 7: a start on each later byte, and on several.
#[rustfmt::skip]
const OVERLAPS: &[Explained] = &[
    (&[0xA9, 1, 2, 0xDB], &[1, 1, 0, 1], C000, C000, "7 overlap: 00C000 A9 01 02 LDA: 00C001 starts inside it"),
    (&[0xA9, 1, 2, 0xDB], &[1, 0, 3, 1], C000, C000, "7 overlap: 00C000 A9 01 02 LDA: 00C002 starts inside it"),
    (&[0xA9, 1, 2, 0xDB], &[1, 9, 1, 1], C000, C000, "7 overlap: 00C000 A9 01 02 LDA: 00C001 starts inside it"),
    (&[0x42, 0x0A, 0xDB], &[1, 1, 1], C000, C000, "7 overlap: 00C000 42 0A ASL: 00C001 starts inside it"),
    (&[0x3C, 1, 2, 3, 4, 0], &[1, 0, 0, 0, 0, 1], C000, C000,
     "7 overlap: 00C000 3C 01 02 03 04 00 BBC: 00C005 starts inside it"),
    (&[0x3C, 1, 2, 3, 4, 0], &[1, 0, 0, 1, 0, 1], 0x12_FFFE, 0x12_FFFE,
     "7 overlap: 12FFFE 3C 01 02 03 04 00 BBC: 130001 starts inside it"),
    (&[0xA9, 1, 2, 0xDB], &[1, 0, 1, 1], 0x12_FFFE, 0x12_FFFE,
     "7 overlap: 12FFFE A9 01 02 LDA: 130000 starts inside it"),
    (&[0xA9, 1, 2], &[1, 0, 1], 0xFF_FFFD, 0xFF_FFFD, "7 overlap: FFFFFD A9 01 02 LDA: FFFFFF starts inside it"),
    (&[0xA9, 1, 2], &[1, 0, 1], 0, 0, "7 overlap: 000000 A9 01 02 LDA: 000002 starts inside it"),
    // 7 goes before 8.
    (&[0x5C, 0, 0, 0], &[1, 0, 0, 1], C000, C000, "7 overlap: 00C000 5C 00 00 00 JMPL: 00C003 starts inside it"),
];

/// 8: of each sort of successor, in the image and outside of it.
#[rustfmt::skip]
const FLOWS: &[Explained] = &[
    // The next address.
    (&[0xEA, 0xDB], &[1, 0], C000, C000, "8 flow: 00C000 EA NOP: 00C001 is no start"),
    (&[0xEA], &[1], C000, C000, "8 flow: 00C000 EA NOP: 00C001 is outside the image"),
    (&[0xEA, 0xDB], &[1, 0], 0x12_FFFF, 0x12_FFFF, "8 flow: 12FFFF EA NOP: 130000 is no start"),
    (&[0xEA], &[1], 0x12_FFFF, 0x12_FFFF, "8 flow: 12FFFF EA NOP: 130000 is outside the image"),
    (&[0xEA], &[1], 0xFF_FFFF, 0xFF_FFFF, "8 flow: FFFFFF EA NOP: 000000 is outside the image"),
    (&[0x3C, 1, 2, 3, 4, 0], &[1, 0, 0, 0, 0, 0], 0xFF_FFFA, 0xFF_FFFA,
     "8 flow: FFFFFA 3C 01 02 03 04 00 BBC: 000000 is outside the image"),
    (&[0xE2, 0x30], &[1, 0], C000, C000, "8 flow: 00C000 E2 30 SEP: 00C002 is outside the image"),
    // A branch: the next address, then its target.
    (&[0xF0, 0x01, 0xDB, 0xDB], &[1, 0, 0, 1], C000, C000, "8 flow: 00C000 F0 01 BEQ: 00C002 is no start"),
    (&[0xF0, 0x01, 0xDB, 0xDB], &[1, 0, 1, 0], C000, C000, "8 flow: 00C000 F0 01 BEQ: 00C003 is no start"),
    (&[0xF0, 0x01, 0xDB, 0xDB], &[1, 0, 0, 0], C000, C000, "8 flow: 00C000 F0 01 BEQ: 00C002 is no start"),
    (&[0xF0, 0x01, 0xDB], &[1, 0, 1], C000, C000, "8 flow: 00C000 F0 01 BEQ: 00C003 is outside the image"),
    (&[0xF0, 0x80, 0xDB], &[1, 0, 1], C000, C000, "8 flow: 00C000 F0 80 BEQ: 00BF82 is outside the image"),
    (&[0xF0, 0xFF, 0xDB], &[1, 0, 1], C000, C000, "8 flow: 00C000 F0 FF BEQ: 00C001 is no start"),
    (&[0xF0, 0x80, 0xDB], &[1, 0, 1], 0, 0, "8 flow: 000000 F0 80 BEQ: FFFF82 is outside the image"),
    (&[0xF0, 0x7F, 0xDB], &[1, 0, 1], 0xFF_FFFD, 0xFF_FFFD, "8 flow: FFFFFD F0 7F BEQ: 00007E is outside the image"),
    (&[0x24, 1, 2, 0, 0x10, 0xDB], &[1, 0, 0, 0, 0, 1], C000, C000,
     "8 flow: 00C000 24 01 02 00 10 BBS: 00C015 is outside the image"),
    // 8 goes before 9: the target is no start, the next one is marked wrongly.
    (&[0xF0, 0x01, 0xDB, 0xDB], &[1, 0, 3, 0], C000, C000, "8 flow: 00C000 F0 01 BEQ: 00C003 is no start"),
    // The target alone.
    (&[0x80, 0xFF], &[1, 0], C000, C000, "8 flow: 00C000 80 FF BRA: 00C001 is no start"),
    (&[0x80, 0x00, 0xDB], &[1, 0, 0], 0x12_FFFE, 0x12_FFFE, "8 flow: 12FFFE 80 00 BRA: 130000 is no start"),
    (&[0x82, 0x00, 0x80], &[1, 0, 0], C000, C000, "8 flow: 00C000 82 00 80 BRAL: 004003 is outside the image"),
    (&[0x82, 0xFF, 0x7F], &[1, 0, 0], 0xFF_FFFD, 0xFF_FFFD,
     "8 flow: FFFFFD 82 FF 7F BRAL: 007FFF is outside the image"),
    (&[0x4C, 0x02, 0xC0], &[1, 0, 0], C000, C000, "8 flow: 00C000 4C 02 C0 JMP: 00C002 is no start"),
    (&[0x4C, 0x00, 0xC0], &[1, 0, 0], 0x12_0000, 0x12_0000, "8 flow: 120000 4C 00 C0 JMP: 12C000 is outside the image"),
    (&[0x4C, 0xFD, 0xFF], &[1, 0, 0], 0x12_FFFD, 0x12_FFFD, "8 flow: 12FFFD 4C FD FF JMP: 13FFFD is outside the image"),
    (&[0x4C, 0x00, 0x00], &[1, 0, 0], 0xFF_FFFD, 0xFF_FFFD, "8 flow: FFFFFD 4C 00 00 JMP: 000000 is outside the image"),
    (&[0x5C, 0x00, 0xC0, 0x01], &[1, 0, 0, 0], C000, C000,
     "8 flow: 00C000 5C 00 C0 01 JMPL: 01C000 is outside the image"),
    (&[0x5C, 0xFF, 0xFF, 0xFF], &[1, 0, 0, 0], 0, 0, "8 flow: 000000 5C FF FF FF JMPL: FFFFFF is outside the image"),
    (&[0x80, 0xFD], &[1, 0], 0, 0, "8 flow: 000000 80 FD BRA: FFFFFF is outside the image"),
    (&[0x82, 0xFD, 0x7F], &[1, 0, 0], 0, 0, "8 flow: 000000 82 FD 7F BRAL: 008000 is outside the image"),
    // A call: its target, then the address after it.
    (&[0x20, 0x04, 0xC0, 0xDB, 0x60], &[1, 0, 0, 1, 0], C000, C000, "8 flow: 00C000 20 04 C0 JSR: 00C004 is no start"),
    (&[0x20, 0x04, 0xC0, 0xDB, 0x60], &[1, 0, 0, 0, 9], C000, C000, "8 flow: 00C000 20 04 C0 JSR: 00C003 is no start"),
    (&[0x20, 0x04, 0xC0, 0xDB, 0x60], &[1, 0, 0, 0, 0], C000, C000, "8 flow: 00C000 20 04 C0 JSR: 00C004 is no start"),
    (&[0x20, 0x00, 0xC0], &[1, 0, 0], C000, C000, "8 flow: 00C000 20 00 C0 JSR: 00C003 is outside the image"),
    (&[0x20, 0x05, 0xC0, 0xDB, 0x60], &[1, 0, 0, 1, 9], C000, C000,
     "8 flow: 00C000 20 05 C0 JSR: 00C005 is outside the image"),
    (&[0x20, 0x01, 0xC0, 0xDB], &[1, 0, 0, 1], C000, C000, "8 flow: 00C000 20 01 C0 JSR: 00C001 is no start"),
    (&[0x20, 0x03, 0xC0, 0x60], &[1, 0, 0, 0], C000, C000, "8 flow: 00C000 20 03 C0 JSR: 00C003 is no start"),
    (&[0x20, 0x00, 0x00, 0xDB], &[1, 0, 0, 0], 0x12_FFFD, 0x12_FFFD, "8 flow: 12FFFD 20 00 00 JSR: 130000 is no start"),
    (&[0x20, 0xFD, 0xFF], &[1, 0, 0], 0xFF_FFFD, 0xFF_FFFD, "8 flow: FFFFFD 20 FD FF JSR: 00FFFD is outside the image"),
    (&[0x22, 0x05, 0xC0, 0x00, 0xDB, 0x6B], &[1, 0, 0, 0, 0, 0x11], C000, C000,
     "8 flow: 00C000 22 05 C0 00 JSRL: 00C004 is no start"),
    (&[0x22, 0x05, 0xC0, 0x01, 0xDB, 0x6B], &[1, 0, 0, 0, 1, 0x11], C000, C000,
     "8 flow: 00C000 22 05 C0 01 JSRL: 01C005 is outside the image"),
    (&[0x6B, 0x22, 0xFB, 0xFF, 0xFF], &[0x11, 1, 0, 0, 0], 0xFF_FFFB, 0xFF_FFFC,
     "8 flow: FFFFFC 22 FB FF FF JSRL: 000000 is outside the image"),
    // 8 goes before 9: the target is no routine, the address after no start.
    (&[0x20, 0x04, 0xC0, 0xDB, 0xDB], &[1, 0, 0, 0, 1], C000, C000, "8 flow: 00C000 20 04 C0 JSR: 00C003 is no start"),
];

/// 9 at a successor: each field, each change of the widths, each sort of it.
#[rustfmt::skip]
const SUCCESSORS: &[Explained] = &[
    (&[0x49, 0x34, 0x12, 0xF8, 0x49, 0x56, 0xDB], &[1, 0, 0, 1, 1, 0, 3], C000, C000,
     "9 widths: 00C003 F8 SEM: 00C004 must be 1 0 N 0 0, is 0 0 N 0 0"),
    (&[0xEA, 0xDB], &[1, 0x03], C000, C000, "9 widths: 00C000 EA NOP: 00C001 must be 0 0 N 0 0, is 1 0 N 0 0"),
    (&[0xEA, 0xDB], &[1, 0x05], C000, C000, "9 widths: 00C000 EA NOP: 00C001 must be 0 0 N 0 0, is 0 1 N 0 0"),
    (&[0xEA, 0xDB], &[1, 0x09], C000, C000, "9 widths: 00C000 EA NOP: 00C001 must be 0 0 N 0 0, is 0 0 S 0 0"),
    (&[0xEA, 0xDB], &[1, 0x11], C000, C000, "9 widths: 00C000 EA NOP: 00C001 must be 0 0 N 0 0, is 0 0 L 0 0"),
    (&[0xDB, 0xEA, 0xDB], &[1, 0x29, 0x09], C000, C000,
     "9 widths: 00C001 EA NOP: 00C002 must be 0 0 S 1 0, is 0 0 S 0 0"),
    (&[0xDB, 0xEA, 0xDB], &[1, 0x11, 0x51], C000, C000,
     "9 widths: 00C001 EA NOP: 00C002 must be 0 0 L 0 0, is 0 0 L 0 1"),
    (&[0xDB, 0xEA, 0xDB], &[1, 0x69, 0x71], C000, C000,
     "9 widths: 00C001 EA NOP: 00C002 must be 0 0 S 1 1, is 0 0 L 1 1"),
    (&[0xDB, 0xEA, 0xDB], &[1, 0x77, 0x0F], C000, C000,
     "9 widths: 00C001 EA NOP: 00C002 must be 1 1 L 1 1, is 1 1 S 0 0"),
    (&[0xF8, 0xD8, 0xDB], &[1, 3, 3], C000, C000, "9 widths: 00C001 D8 CLM: 00C002 must be 0 0 N 0 0, is 1 0 N 0 0"),
    (&[0xE2, 0x30, 0xDB], &[1, 0, 1], C000, C000, "9 widths: 00C000 E2 30 SEP: 00C002 must be 1 1 N 0 0, is 0 0 N 0 0"),
    (&[0xE2, 0xCF, 0xDB], &[1, 0, 7], C000, C000, "9 widths: 00C000 E2 CF SEP: 00C002 must be 0 0 N 0 0, is 1 1 N 0 0"),
    (&[0xDB, 0xC2, 0x10, 0xDB], &[1, 7, 0, 7], C000, C000,
     "9 widths: 00C001 C2 10 CLP: 00C003 must be 1 0 N 0 0, is 1 1 N 0 0"),
    (&[0xDB, 0xC2, 0x20, 0xDB], &[1, 0x6F, 0, 0x6F], C000, C000,
     "9 widths: 00C001 C2 20 CLP: 00C003 must be 0 1 S 1 1, is 1 1 S 1 1"),
    // A branch: the next address, then its target.
    (&[0xF0, 0x01, 0xDB, 0xDB], &[1, 0, 3, 1], C000, C000,
     "9 widths: 00C000 F0 01 BEQ: 00C002 must be 0 0 N 0 0, is 1 0 N 0 0"),
    (&[0xF0, 0x01, 0xDB, 0xDB], &[1, 0, 1, 5], C000, C000,
     "9 widths: 00C000 F0 01 BEQ: 00C003 must be 0 0 N 0 0, is 0 1 N 0 0"),
    (&[0xF0, 0x01, 0xDB, 0xDB], &[1, 0, 3, 5], C000, C000,
     "9 widths: 00C000 F0 01 BEQ: 00C002 must be 0 0 N 0 0, is 1 0 N 0 0"),
    (&[0xF0, 0x00, 0xDB], &[1, 0, 9], C000, C000, "9 widths: 00C000 F0 00 BEQ: 00C002 must be 0 0 N 0 0, is 0 0 S 0 0"),
    (&[0xDB, 0xF0, 0xFD, 0xDB], &[1, 3, 0, 3], C000, C000,
     "9 widths: 00C001 F0 FD BEQ: 00C000 must be 1 0 N 0 0, is 0 0 N 0 0"),
    (&[0x3C, 1, 2, 3, 4, 0xFA, 0xDB], &[1, 0, 0, 0, 0, 0, 7], C000, C000,
     "9 widths: 00C000 3C 01 02 03 04 FA BBC: 00C006 must be 0 0 N 0 0, is 1 1 N 0 0"),
    (&[0xDB, 0x2C, 1, 2, 3, 0xFA, 0xDB], &[1, 3, 0, 0, 0, 0, 3], C000, C000,
     "9 widths: 00C001 2C 01 02 03 FA BBS: 00C000 must be 1 0 N 0 0, is 0 0 N 0 0"),
    // The target alone.
    (&[0x80, 0x00, 0xDB], &[1, 0, 3], C000, C000, "9 widths: 00C000 80 00 BRA: 00C002 must be 0 0 N 0 0, is 1 0 N 0 0"),
    (&[0x82, 0x00, 0x00, 0xDB], &[1, 0, 0, 5], C000, C000,
     "9 widths: 00C000 82 00 00 BRAL: 00C003 must be 0 0 N 0 0, is 0 1 N 0 0"),
    (&[0x4C, 0x03, 0xC0, 0xDB], &[1, 0, 0, 7], C000, C000,
     "9 widths: 00C000 4C 03 C0 JMP: 00C003 must be 0 0 N 0 0, is 1 1 N 0 0"),
    (&[0x5C, 0x04, 0xC0, 0, 0xDB], &[1, 0, 0, 0, 0x11], C000, C000,
     "9 widths: 00C000 5C 04 C0 00 JMPL: 00C004 must be 0 0 N 0 0, is 0 0 L 0 0"),
    // Around a bank's end, at 000000 and at FFFFFF.
    (&[0xF8, 0xDB], &[1, 1], 0x12_FFFE, 0x12_FFFE, "9 widths: 12FFFE F8 SEM: 12FFFF must be 1 0 N 0 0, is 0 0 N 0 0"),
    (&[0xF8, 0xDB], &[1, 1], 0x12_FFFF, 0x12_FFFF, "9 widths: 12FFFF F8 SEM: 130000 must be 1 0 N 0 0, is 0 0 N 0 0"),
    (&[0x4C, 0x00, 0x00, 0xDB], &[1, 0, 0, 3], 0x12_FFFD, 0x12_FFFD,
     "9 widths: 12FFFD 4C 00 00 JMP: 130000 must be 0 0 N 0 0, is 1 0 N 0 0"),
    (&[0xDB, 0x80, 0xFD], &[1, 3, 0], 0x12_FFFF, 0x12_FFFF,
     "9 widths: 130000 80 FD BRA: 12FFFF must be 1 0 N 0 0, is 0 0 N 0 0"),
    (&[0xDB, 0x80, 0xFD], &[1, 3, 0], 0, 0, "9 widths: 000001 80 FD BRA: 000000 must be 1 0 N 0 0, is 0 0 N 0 0"),
    (&[0xF8, 0xDB], &[1, 1], 0xFF_FFFE, 0xFF_FFFE, "9 widths: FFFFFE F8 SEM: FFFFFF must be 1 0 N 0 0, is 0 0 N 0 0"),
];

/// 9 at a call: each field of its target, then of the address after it.
#[rustfmt::skip]
const CALLS: &[Explained] = &[
    (&[0x20, 0x04, 0xC0, 0xDB, 0x60], &[1, 0, 0, 1, 0x01], C000, C000,
     "9 widths: 00C000 20 04 C0 JSR: 00C004 must be 0 0 S - -, is 0 0 N 0 0"),
    (&[0x20, 0x04, 0xC0, 0xDB, 0x6B], &[1, 0, 0, 1, 0x11], C000, C000,
     "9 widths: 00C000 20 04 C0 JSR: 00C004 must be 0 0 S - -, is 0 0 L 0 0"),
    (&[0x20, 0x04, 0xC0, 0xDB, 0x60], &[1, 0, 0, 1, 0x0B], C000, C000,
     "9 widths: 00C000 20 04 C0 JSR: 00C004 must be 0 0 S - -, is 1 0 S 0 0"),
    (&[0x20, 0x04, 0xC0, 0xDB, 0x60], &[1, 0, 0, 7, 0x6D], C000, C000,
     "9 widths: 00C000 20 04 C0 JSR: 00C004 must be 0 0 S - -, is 0 1 S 1 1"),
    (&[0xDB, 0x20, 0x05, 0xC0, 0xDB, 0x60], &[1, 7, 0, 0, 7, 0x09], C000, C000,
     "9 widths: 00C001 20 05 C0 JSR: 00C005 must be 1 1 S - -, is 0 0 S 0 0"),
    (&[0x22, 0x05, 0xC0, 0, 0xDB, 0x6B], &[1, 0, 0, 0, 1, 0x01], C000, C000,
     "9 widths: 00C000 22 05 C0 00 JSRL: 00C005 must be 0 0 L - -, is 0 0 N 0 0"),
    (&[0x22, 0x05, 0xC0, 0, 0xDB, 0x60], &[1, 0, 0, 0, 1, 0x09], C000, C000,
     "9 widths: 00C000 22 05 C0 00 JSRL: 00C005 must be 0 0 L - -, is 0 0 S 0 0"),
    (&[0x22, 0x05, 0xC0, 0, 0xDB, 0x6B], &[1, 0, 0, 0, 1, 0x13], C000, C000,
     "9 widths: 00C000 22 05 C0 00 JSRL: 00C005 must be 0 0 L - -, is 1 0 L 0 0"),
    (&[0xDB, 0x22, 0x06, 0xC0, 0, 0xDB, 0x6B], &[1, 5, 0, 0, 0, 5, 0x17], C000, C000,
     "9 widths: 00C001 22 06 C0 00 JSRL: 00C006 must be 0 1 L - -, is 1 1 L 0 0"),
    // The address after: the target's return widths.
    (&[0x20, 0x04, 0xC0, 0xDB, 0x60], &[1, 0, 0, 3, 0x09], C000, C000,
     "9 widths: 00C000 20 04 C0 JSR: 00C003 must be 0 0 N 0 0, is 1 0 N 0 0"),
    (&[0x20, 0x04, 0xC0, 0xDB, 0x60], &[1, 0, 0, 1, 0x29], C000, C000,
     "9 widths: 00C000 20 04 C0 JSR: 00C003 must be 1 0 N 0 0, is 0 0 N 0 0"),
    (&[0x20, 0x04, 0xC0, 0xDB, 0x60], &[1, 0, 0, 3, 0x49], C000, C000,
     "9 widths: 00C000 20 04 C0 JSR: 00C003 must be 0 1 N 0 0, is 1 0 N 0 0"),
    (&[0x22, 0x05, 0xC0, 0, 0xDB, 0x6B], &[1, 0, 0, 0, 1, 0x71], C000, C000,
     "9 widths: 00C000 22 05 C0 00 JSRL: 00C004 must be 1 1 N 0 0, is 0 0 N 0 0"),
    // The address after: the caller's own kind and return widths.
    (&[0x20, 0x04, 0xC0, 0xDB, 0x60], &[1, 0, 0, 9, 0x09], C000, C000,
     "9 widths: 00C000 20 04 C0 JSR: 00C003 must be 0 0 N 0 0, is 0 0 S 0 0"),
    (&[0xDB, 0x20, 0x05, 0xC0, 0x6B, 0x60], &[1, 0x31, 0, 0, 0x29, 0x49], C000, C000,
     "9 widths: 00C001 20 05 C0 JSR: 00C004 must be 0 1 L 1 0, is 0 0 S 1 0"),
    (&[0xDB, 0x20, 0x05, 0xC0, 0x60, 0x60], &[1, 0x29, 0, 0, 0x09, 0x09], C000, C000,
     "9 widths: 00C001 20 05 C0 JSR: 00C004 must be 0 0 S 1 0, is 0 0 S 0 0"),
    (&[0xDB, 0x20, 0x05, 0xC0, 0x60, 0x60], &[1, 0x09, 0, 0, 0x49, 0x09], C000, C000,
     "9 widths: 00C001 20 05 C0 JSR: 00C004 must be 0 0 S 0 0, is 0 0 S 0 1"),
    // Both: the target first.
    (&[0x20, 0x04, 0xC0, 0xDB, 0x60], &[1, 0, 0, 3, 0x01], C000, C000,
     "9 widths: 00C000 20 04 C0 JSR: 00C004 must be 0 0 S - -, is 0 0 N 0 0"),
    // A call of itself: its own mark is the target's.
    (&[0x20, 0x00, 0xC0, 0xDB], &[1, 0, 0, 1], C000, C000,
     "9 widths: 00C000 20 00 C0 JSR: 00C000 must be 0 0 S - -, is 0 0 N 0 0"),
    (&[0x22, 0x00, 0xC0, 0x00, 0xDB], &[1, 0, 0, 0, 1], C000, C000,
     "9 widths: 00C000 22 00 C0 00 JSRL: 00C000 must be 0 0 L - -, is 0 0 N 0 0"),
    (&[0xDB, 0x20, 0x01, 0xC0, 0xDB], &[1, 0x77, 0, 0, 0x77], C000, C000,
     "9 widths: 00C001 20 01 C0 JSR: 00C001 must be 1 1 S - -, is 1 1 L 1 1"),
    (&[0xDB, 0x20, 0x01, 0xC0, 0xDB], &[1, 0x29, 0, 0, 0x09], C000, C000,
     "9 widths: 00C001 20 01 C0 JSR: 00C004 must be 1 0 S 1 0, is 0 0 S 0 0"),
    // A call of the address after it: that mark is the target's too.
    (&[0x20, 0x03, 0xC0, 0xDB], &[1, 0, 0, 1], C000, C000,
     "9 widths: 00C000 20 03 C0 JSR: 00C003 must be 0 0 S - -, is 0 0 N 0 0"),
    (&[0x20, 0x03, 0xC0, 0x60], &[1, 0, 0, 0x69], C000, C000,
     "9 widths: 00C000 20 03 C0 JSR: 00C003 must be 1 1 N 0 0, is 0 0 S 1 1"),
    (&[0x22, 0x04, 0xC0, 0x00, 0x6B], &[1, 0, 0, 0, 0x71], C000, C000,
     "9 widths: 00C000 22 04 C0 00 JSRL: 00C004 must be 1 1 N 0 0, is 0 0 L 1 1"),
    (&[0xDB, 0x20, 0x04, 0xC0, 0x60], &[1, 0x09, 0, 0, 0x69], C000, C000,
     "9 widths: 00C001 20 04 C0 JSR: 00C004 must be 1 1 S 0 0, is 0 0 S 1 1"),
    (&[0xDB, 0x20, 0x04, 0xC0, 0x60], &[1, 0x09, 0, 0, 0x0F], C000, C000,
     "9 widths: 00C001 20 04 C0 JSR: 00C004 must be 0 0 S - -, is 1 1 S 0 0"),
    // Around a bank's end, and up to FFFFFF.
    (&[0x20, 0x01, 0x00, 0xDB, 0x60], &[1, 0, 0, 1, 1], 0x12_FFFD, 0x12_FFFD,
     "9 widths: 12FFFD 20 01 00 JSR: 130001 must be 0 0 S - -, is 0 0 N 0 0"),
    (&[0x6B, 0x22, 0xFE, 0xFF, 0x12, 0xDB], &[0x11, 1, 0, 0, 0, 3], 0x12_FFFE, 0x12_FFFF,
     "9 widths: 12FFFF 22 FE FF 12 JSRL: 130003 must be 0 0 N 0 0, is 1 0 N 0 0"),
    (&[0x60, 0x22, 0xFA, 0xFF, 0xFF, 0xDB], &[0x09, 1, 0, 0, 0, 1], 0xFF_FFFA, 0xFF_FFFB,
     "9 widths: FFFFFB 22 FA FF FF JSRL: FFFFFA must be 0 0 L - -, is 0 0 S 0 0"),
];

/// 10: under each other kind, and at other widths.
#[rustfmt::skip]
const RETURNS: &[Explained] = &[
    (&[0x60], &[1], C000, C000, "10 return: 00C000 60 RTS: returns S 0 0, is marked N 0 0"),
    (&[0x6B], &[1], C000, C000, "10 return: 00C000 6B RTL: returns L 0 0, is marked N 0 0"),
    (&[0xDB, 0x60], &[1, 7], C000, C000, "10 return: 00C001 60 RTS: returns S 1 1, is marked N 0 0"),
    (&[0xDB, 0x60], &[1, 0x11], C000, C000, "10 return: 00C001 60 RTS: returns S 0 0, is marked L 0 0"),
    (&[0xDB, 0x6B], &[1, 0x09], C000, C000, "10 return: 00C001 6B RTL: returns L 0 0, is marked S 0 0"),
    (&[0xDB, 0x60], &[1, 0x29], C000, C000, "10 return: 00C001 60 RTS: returns S 0 0, is marked S 1 0"),
    (&[0xDB, 0x60], &[1, 0x49], C000, C000, "10 return: 00C001 60 RTS: returns S 0 0, is marked S 0 1"),
    (&[0xDB, 0x60], &[1, 0x0B], C000, C000, "10 return: 00C001 60 RTS: returns S 1 0, is marked S 0 0"),
    (&[0xDB, 0x60], &[1, 0x0D], C000, C000, "10 return: 00C001 60 RTS: returns S 0 1, is marked S 0 0"),
    (&[0xDB, 0x60], &[1, 0x4B], C000, C000, "10 return: 00C001 60 RTS: returns S 1 0, is marked S 0 1"),
    (&[0xDB, 0x6B], &[1, 0x71], C000, C000, "10 return: 00C001 6B RTL: returns L 0 0, is marked L 1 1"),
    (&[0xDB, 0x6B], &[1, 0x17], C000, C000, "10 return: 00C001 6B RTL: returns L 1 1, is marked L 0 0"),
    (&[0xDB, 0x6B], &[1, 0x4D], C000, C000, "10 return: 00C001 6B RTL: returns L 0 1, is marked S 0 1"),
    (&[0xDB, 0x60], &[1, 1], 0x12_FFFE, 0x12_FFFE, "10 return: 12FFFF 60 RTS: returns S 0 0, is marked N 0 0"),
    (&[0xDB, 0x6B], &[1, 1], 0x12_FFFF, 0x12_FFFF, "10 return: 130000 6B RTL: returns L 0 0, is marked N 0 0"),
    (&[0x60], &[1], 0, 0, "10 return: 000000 60 RTS: returns S 0 0, is marked N 0 0"),
    (&[0xDB, 0x60], &[1, 0x11], 0xFF_FFFE, 0xFF_FFFE, "10 return: FFFFFF 60 RTS: returns S 0 0, is marked L 0 0"),
];
