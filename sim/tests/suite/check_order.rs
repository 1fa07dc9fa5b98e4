//! The check's numbers 1 to 10 and their order: 1, 2, 4, 3, then at each
//! start from the lowest 5, 6, 7, 10, 8, 9.

use sim7700::check;

fn refuses(image: &[u8], marks: &[u8], number: u32, offset: u32) {
    let answer = check(image, marks, 0xC000, 0xC000);
    assert_eq!(
        (answer >> 16, answer & 0xFFFF),
        (number, offset),
        "{image:02X?}"
    );
}

fn accepts(image: &[u8], marks: &[u8]) {
    refuses(image, marks, 0, 0);
}

/// NOPs with STP last, all marked 01.
fn nops(length: usize) -> (Vec<u8>, Vec<u8>) {
    let mut image = vec![0xEA; length];
    *image.last_mut().unwrap() = 0xDB;
    (image, vec![1; length])
}

#[test]
fn length_is_1_before_all() {
    assert_eq!(check(&[], &[], u32::MAX, u32::MAX), 1 << 16);
    for length in [16_384, 16_385, 65_535, 65_536] {
        let (image, marks) = nops(length);
        assert_eq!(check(&image, &marks, 0xC000, 0xC000), 0);
    }
    let (image, marks) = nops(65_537);
    assert_eq!(check(&image, &marks, 0x8000, 0x8000), 1 << 16);
    let (image, marks) = nops(4);
    assert_eq!(check(&image, &marks[..3], u32::MAX, 0), 1 << 16);
    assert_eq!(check(&image, &[1; 5], 0xC000, 0xC000), 1 << 16);
    assert_eq!(check(&image, &[], 0xC000, 0xC000), 1 << 16);
}

#[test]
fn base_is_2_before_marks() {
    let (image, marks) = nops(4);
    for base in [0, 0xFFFC, 0xFFFD, 0xFFFF, 0x12FFFE, 0xFFFFFC] {
        assert_eq!(check(&image, &marks, base, base), 0, "{base:06X}");
    }
    for base in [0xFFFFFD, 0xFFFFFF, 0x1000000, 0x100C000, u32::MAX] {
        assert_eq!(check(&image, &marks, base, base), 2 << 16);
        assert_eq!(check(&image, &[0xFF; 4], base, 0), 2 << 16);
    }
    let (image, marks) = nops(65_536);
    assert_eq!(check(&image, &marks, 0xFF0000, 0xFF0000), 0);
    assert_eq!(check(&image, &marks, 0xFF0001, 0xFF0001), 2 << 16);
}

#[test]
fn mark_is_4_at_the_lowest_before_reset() {
    for bad in [
        0x02, 0x04, 0x08, 0x80, 0x81, 0x19, 0x18, 0x21, 0x41, 0x61, 0xFF, 0x10,
    ] {
        refuses(&[0xEA, 0xEA, 0xDB], &[0, 0, bad], 4, 2);
        refuses(&[0xEA, 0xEA, 0xDB], &[1, bad, bad], 4, 1);
    }
    for good in [0x69, 0x71, 0x6F, 0x77, 0x09, 0x11] {
        let answer = check(&[0xDB, 0xDB], &[1, good], 0xC000, 0xC000);
        assert_eq!(answer, 0, "{good:02X}");
    }
}

#[test]
fn reset_is_3_before_starts() {
    let image = [0x00, 0xDB];
    for (marks, reset) in [
        ([0, 1], 0xC000),
        ([1, 1], 0xBFFF),
        ([1, 1], 0xC002),
        ([1, 1], 0x1C000),
        ([1, 1], 0x10C000),
        ([1, 1], 0x100C000),
        ([1, 1], u32::MAX),
        ([3, 1], 0xC000),
        ([5, 1], 0xC000),
        ([9, 1], 0xC000),
        ([0x11, 1], 0xC000),
    ] {
        assert_eq!(check(&image, &marks, 0xC000, reset), 3 << 16);
    }
    // The reset is a whole address, and may be any start.
    for (reset, answer) in [(0x12C001, 0), (0xC001, 3 << 16), (0x13C001, 3 << 16)] {
        assert_eq!(check(&[0xDB, 0xDB], &[1, 1], 0x12C000, reset), answer);
    }
}

/// A lone prefix as the last byte is 6, an uncarried code is 5 also where
/// its operand bytes are missing.
#[test]
fn code_is_5_and_cut_off_is_6() {
    refuses(&[0x42], &[1], 6, 0);
    refuses(&[0xEA, 0x89], &[1, 1], 6, 1);
    refuses(&[0x00], &[1], 5, 0);
    refuses(&[0x6C], &[1], 5, 0);
    refuses(&[0x54], &[1], 5, 0);
    refuses(&[0x89, 0x0F], &[1, 0], 5, 0);
    refuses(&[0x42, 0x42], &[1, 1], 5, 0);
    refuses(&[0xA9, 0x00], &[1, 0], 6, 0);
    refuses(&[0xA9], &[1], 6, 0);
    refuses(&[0x42, 0xA9, 0], &[1, 0, 0], 6, 0);
    // At m=1 the same bytes are enough.
    accepts(&[0xF8, 0xA9, 0x00, 0xDB], &[1, 3, 0, 3]);
    // LDX goes by x: under m=1 it still has three bytes.
    refuses(&[0xF8, 0xA2, 0x00], &[1, 3, 0], 6, 1);
}

/// At one start: 5 before 6, 6 before 7, 7 before 10, 8 and 9.
#[test]
fn order_at_one_start() {
    refuses(&[0x00, 0xEA], &[1, 1], 5, 0);
    refuses(&[0xA9, 0xEA], &[1, 1], 6, 0);
    refuses(&[0x4C, 0x00, 0x00], &[1, 1, 0], 7, 0);
    refuses(&[0x4C, 0x00, 0x00], &[1, 0, 1], 7, 0);
    refuses(&[0x60], &[1], 10, 0);
    refuses(&[0x4C, 0x00, 0x00], &[1, 0, 0], 8, 0);
    refuses(&[0xEA, 0xDB], &[1, 3], 9, 0);
}

/// The lower start decides, whatever its number.
#[test]
fn lower_starts_go_first() {
    refuses(&[0xEA, 0xDB, 0x00], &[1, 3, 1], 9, 0);
    refuses(&[0xDB, 0x60, 0x00], &[1, 1, 1], 10, 1);
    refuses(&[0x80, 0x10, 0x42], &[1, 0, 1], 8, 0);
}

/// 8 on every obligation of a start before 9 on any.
#[test]
fn flow_goes_before_widths() {
    // BEQ: next breaks the widths, the target is no start.
    refuses(&[0xF0, 0x10, 0xDB], &[1, 0, 3], 8, 0);
    // BEQ: the target breaks the widths, next is no start.
    refuses(&[0xF0, 0x01, 0xDB, 0xDB], &[1, 0, 0, 3], 8, 0);
    // JSR: the target has the wrong kind, the address after is no start.
    refuses(&[0x20, 0x04, 0xC0, 0xDB, 0x60], &[1, 0, 0, 0, 1], 8, 0);
    // JSR: the address after has wrong widths, the target is no start.
    refuses(&[0x20, 0x05, 0xC0, 0xDB, 0x60], &[1, 0, 0, 3, 9], 8, 0);
}

#[test]
fn successors_stay_in_the_image() {
    refuses(&[0xEA], &[1], 8, 0);
    refuses(&[0xF0, 0xFE], &[1, 0], 8, 0);
    accepts(&[0x80, 0xFE], &[1, 0]);
    accepts(&[0x82, 0xFD, 0xFF], &[1, 0, 0]);
    accepts(&[0x4C, 0x00, 0xC0], &[1, 0, 0]);
    accepts(&[0x5C, 0x00, 0xC0, 0x00], &[1, 0, 0, 0]);
    refuses(&[0x5C, 0x00, 0xC0, 0x01], &[1, 0, 0, 0], 8, 0);
    accepts(&[0xDB], &[1]);
    accepts(&[0xCB], &[1]);
    // JMP absolute has a bank; from FFFFFF on it goes to 000000.
    assert_eq!(check(&[0x4C, 0, 0xC0], &[1, 0, 0], 0x12C000, 0x12C000), 0);
    assert_eq!(check(&[0xEA], &[1], 0xFFFFFF, 0xFFFFFF), 8 << 16);
    assert_eq!(check(&[0x80, 0x00], &[1, 0], 0xFFFFFE, 0xFFFFFE), 8 << 16);
    assert_eq!(check(&[0x80, 0x80], &[1, 0], 0, 0), 8 << 16);
}

/// SEP and CLP change the widths by their fixed bits 5 and 4.
#[test]
fn width_changes() {
    for (bits, mark) in [
        (0x00, 1),
        (0x10, 5),
        (0x20, 3),
        (0x30, 7),
        (0xCF, 1),
        (0xFF, 7),
    ] {
        accepts(&[0xE2, bits, 0xDB], &[1, 0, mark]);
        for other in [1, 3, 5, 7] {
            if other != mark {
                refuses(&[0xE2, bits, 0xDB], &[1, 0, other], 9, 0);
            }
        }
    }
    for (bits, mark) in [(0x00, 7), (0x10, 3), (0x20, 5), (0x30, 1), (0xFF, 1)] {
        accepts(&[0xE2, 0x30, 0xC2, bits, 0xDB], &[1, 0, 7, 0, mark]);
    }
    accepts(&[0xF8, 0xD8, 0xDB], &[1, 3, 1]);
    accepts(&[0xE2, 0x10, 0xF8, 0xD8, 0xDB], &[1, 0, 5, 7, 5]);
}

/// Successors keep kind and return widths.
#[test]
fn successors_keep_the_return() {
    accepts(&[0xDB, 0xEA, 0x60], &[1, 0x09, 0x09]);
    refuses(&[0xDB, 0xEA, 0xDB], &[1, 0x09, 0x11], 9, 1);
    refuses(&[0xDB, 0xEA, 0xDB], &[1, 0x09, 0x01], 9, 1);
    refuses(&[0xDB, 0xEA, 0xDB], &[1, 0x09, 0x29], 9, 1);
    refuses(&[0xDB, 0xEA, 0xDB], &[1, 0x09, 0x49], 9, 1);
}

/// RTS under kind 1, RTL under kind 2, each at the marked return widths.
#[test]
fn returns_by_kind_and_widths() {
    for (code, kind) in [(0x60, 0x08), (0x6B, 0x10)] {
        for (widths, at_return) in [(0, 0), (2, 0x20), (4, 0x40), (6, 0x60)] {
            accepts(&[0xDB, code], &[1, 1 | widths | kind | at_return]);
            refuses(
                &[0xDB, code],
                &[1, 1 | widths | (kind ^ 0x18) | at_return],
                10,
                1,
            );
            for other in [0, 0x20, 0x40, 0x60] {
                if other != at_return {
                    refuses(&[0xDB, code], &[1, 1 | widths | kind | other], 10, 1);
                }
            }
        }
        refuses(&[0xDB, code], &[1, 1], 10, 1);
    }
}

/// The address after a call has the target's return widths as its widths.
#[test]
fn calls_bring_back_the_return_widths() {
    // The routine sets m and x and returns.
    let image = [0x20, 0x04, 0xC0, 0xDB, 0xE2, 0x30, 0x60];
    accepts(&image, &[1, 0, 0, 7, 0x69, 0, 0x6F]);
    refuses(&image, &[1, 0, 0, 1, 0x69, 0, 0x6F], 9, 0);
    let long = [0x22, 0x05, 0xC0, 0x00, 0xDB, 0xE2, 0x30, 0x6B];
    accepts(&long, &[1, 0, 0, 0, 7, 0x71, 0, 0x77]);
    // The kinds of the two calls are not each other's.
    refuses(&long, &[1, 0, 0, 0, 7, 0x69, 0, 0x6F], 9, 0);
    // The target has the caller's widths.
    refuses(&[0x20, 0x04, 0xC0, 0xDB, 0x60], &[1, 0, 0, 3, 0x2B], 9, 0);
    // The address after keeps the caller's own kind and return widths.
    let nested = [0xDB, 0x20, 0x05, 0xC0, 0x60, 0x60];
    accepts(&nested, &[1, 0x09, 0, 0, 0x09, 0x09]);
    refuses(&nested, &[1, 0x09, 0, 0, 0x01, 0x09], 9, 1);
    refuses(&nested, &[1, 0x11, 0, 0, 0x09, 0x09], 9, 1);
}
