//! The mark list in six digits (02, R-7): reader 14, 1, 2, 3; writer 1, 2, 4, 3,
//! 15.

use sim7700::generate::{self, Rng};
use sim7700::{read_list, write_list};

/// 01's case 1, its addresses with six digits.
pub const CASE_1: &str = "I\t00C000\t7\t00C000\n\
00C000\t0\t0\tN\t0\t0\n\
00C003\t0\t0\tN\t0\t0\n\
00C004\t1\t0\tN\t0\t0\n\
00C006\t1\t0\tN\t0\t0\n";
pub const MARKS_1: [u8; 7] = [1, 0, 0, 1, 3, 0, 3];

/// The reader's number for a text and a marks buffer of this length, which
/// must stay as given on a refusal.
pub fn number(text: &str, length: usize) -> u64 {
    let mut marks = vec![0xAA; length];
    let answer = read_list(text.as_bytes(), &mut marks);
    if answer & 0xFF != 0 {
        assert!(marks.iter().all(|&m| m == 0xAA), "{text}");
        assert_eq!(answer >> 8, 0, "{text}");
    }
    answer & 0xFF
}

#[test]
fn case_1_is_read_and_written() {
    let mut marks = [0xAA; 7];
    let answer = read_list(CASE_1.as_bytes(), &mut marks);
    assert_eq!(answer, 0xC000 << 32 | 0xC000 << 8);
    assert_eq!(marks, MARKS_1);
    let mut page = [0x55; 100];
    let length = CASE_1.len();
    assert_eq!(
        write_list(&MARKS_1, 0xC000, 0xC000, &mut page),
        (length as u64) << 8
    );
    assert_eq!(&page[..length], CASE_1.as_bytes());
    assert!(
        page[length..].iter().all(|&b| b == 0x55),
        "bytes past the list"
    );
}

#[test]
fn kinds_and_widths_have_their_letters() {
    let marks = [0x01, 0x2B, 0x55, 0x77, 0x0F, 0x71];
    let text = "I\t12FFFC\t6\t12FFFC\n12FFFC\t0\t0\tN\t0\t0\n12FFFD\t1\t0\tS\t1\t0\n\
12FFFE\t0\t1\tL\t0\t1\n12FFFF\t1\t1\tL\t1\t1\n130000\t1\t1\tS\t0\t0\n130001\t0\t0\tL\t1\t1\n";
    let mut page = vec![0; text.len()];
    assert_eq!(
        write_list(&marks, 0x12FFFC, 0x12FFFC, &mut page),
        (text.len() as u64) << 8
    );
    assert_eq!(String::from_utf8(page).unwrap(), text);
    let mut read = [0xAA; 6];
    assert_eq!(
        read_list(text.as_bytes(), &mut read),
        0x12FFFC << 32 | 0x12FFFC << 8
    );
    assert_eq!(read, marks);
}

#[test]
fn texts_out_of_form_are_14() {
    for text in [
        "",
        "I",
        "I\t00C000\t7\t00C000",
        "I\t0C000\t7\t00C000\n",
        "I\t000C000\t7\t00C000\n",
        "I\t00c000\t7\t00C000\n",
        "I\t00C000\t07\t00C000\n",
        "I\t00C000\t\t00C000\n",
        "I\t00C000\t00\t00C000\n",
        "I\t00C000\t123456\t00C000\n",
        "I\t00C000\t7\t000C000\n",
        "I\t00C000\t7\t0C000\n",
        "I\t00C000\t7\tC00\n",
        "I\t00C000\t7\t00c000\n",
        "I\t00C000\t7\t00C000\r\n",
        "I 00C000\t7\t00C000\n",
        "i\t00C000\t7\t00C000\n",
        "I\t00C000\t7\t00C000\n\n",
        "I\t00C000\t7\t00C000\t\n",
        "I\t00C000\t+7\t00C000\n",
        "I\t00C000\t7 \t00C000\n",
        " I\t00C000\t7\t00C000\n",
    ] {
        assert_eq!(number(text, 7), 14, "{text:?}");
    }
}

#[test]
fn start_lines_out_of_form_are_14() {
    for line in [
        "00C000\t0\t0\tN\t0\t0",
        "00C000\t2\t0\tN\t0\t0\n",
        "00C000\t0\t2\tN\t0\t0\n",
        "00C000\t0\t0\tn\t0\t0\n",
        "00C000\t0\t0\tR\t0\t0\n",
        "00C000\t0\t0\tN\t1\t0\n",
        "00C000\t0\t0\tN\t0\t1\n",
        "00C000\t0\t0\tS\t2\t0\n",
        "00C000\t0\t0\tS\t0\n",
        "00C000\t0\t0\tS\t0\t0\t\n",
        "00C000 0\t0\tS\t0\t0\n",
        "00c000\t0\t0\tN\t0\t0\n",
        "0C000\t0\t0\tN\t0\t0\n",
        "000C000\t0\t0\tN\t0\t0\n",
        "00BFFF\t0\t0\tN\t0\t0\n",
        "00C007\t0\t0\tN\t0\t0\n",
        "00C000\t0\t0\tN\t0\t0\n00C000\t0\t0\tN\t0\t0\n",
        "00C001\t0\t0\tN\t0\t0\n00C000\t0\t0\tN\t0\t0\n",
    ] {
        assert_eq!(
            number(&format!("I\t00C000\t7\t00C000\n{line}"), 7),
            14,
            "{line:?}"
        );
    }
}

/// 14 goes before 1: a line out of form under a length that gets 1.
#[test]
fn length_is_1_behind_form() {
    let start = "\t0\t0\tN\t0\t0\n";
    assert_eq!(number("I\t00C000\t0\t00C000\n", 0), 1);
    assert_eq!(number("I\t00C000\t0\t00C000\n", 7), 1);
    let none = format!("I\t00C000\t0\t00C000\n00C000{start}");
    assert_eq!(number(&none, 0), 14);
    let widths = "I\t00C000\t7\t00C000\n00C000\t0\t0\tN\t1\t0\n";
    assert_eq!(number(widths, 6), 14);
    assert_eq!(number(CASE_1, 6), 1);
    assert_eq!(number(CASE_1, 8), 1);
    assert_eq!(number(CASE_1, 0), 1);
    for (length, address, answer) in [
        (16_384, "004000", 0),
        (16_385, "004000", 0),
        (65_536, "004000", 0),
        (65_537, "004000", 1),
        (99_999, "004000", 1),
        (99_999, "01C69E", 1),
        (99_999, "01C69F", 14),
        (99_999, "003FFF", 14),
    ] {
        let text = format!("I\t004000\t{length}\t004000\n{address}{start}");
        assert_eq!(number(&text, length), answer, "{length} {address}");
    }
}

/// 2 past FFFFFF, and not past a bank's end.
#[test]
fn base_is_2_behind_length() {
    let start = "\t0\t0\tN\t0\t0\n";
    for (base, answer) in [
        ("00FFF9", 0),
        ("00FFFA", 0),
        ("12FFFF", 0),
        ("FFFFF9", 0),
        ("FFFFFA", 2),
        ("FFFFFF", 2),
    ] {
        let text = format!("I\t{base}\t7\t{base}\n{base}{start}");
        assert_eq!(number(&text, 7), answer, "{base}");
        assert_eq!(number(&text, 6), 1);
        // 2 goes before 3.
        let other = format!("I\t{base}\t7\t000000\n{base}{start}");
        let without_reset = if answer == 0 { 3 } else { answer };
        assert_eq!(number(&other, 7), without_reset);
    }
    // Without wrap: 000000 is not among the addresses from FFFFFA on.
    let wrapped = format!("I\tFFFFFA\t7\tFFFFFA\n000000{start}");
    assert_eq!(number(&wrapped, 7), 14);
    assert_eq!(number("I\tFFFFFA\t7\t000000\n", 7), 2);
    let longest = format!("I\tFF0000\t65536\tFFFFFF\nFFFFFF{start}");
    assert_eq!(number(&longest, 65_536), 0);
    let past = format!("I\tFF0001\t65536\tFFFFFF\nFFFFFF{start}");
    assert_eq!(number(&past, 65_536), 2);
}

/// From the whole base on: the same low 16 bits in another bank are 14.
#[test]
fn starts_count_from_the_whole_base() {
    for (address, answer) in [
        ("12FFFB", 14),
        ("12FFFC", 0),
        ("12FFFF", 0),
        ("130000", 0),
        ("130002", 0),
        ("130003", 14),
        ("00FFFC", 14),
        ("11FFFC", 14),
        ("13FFFC", 14),
        ("120000", 14),
        ("FFFFFC", 14),
    ] {
        let text = format!("I\t12FFFC\t7\t{address}\n{address}\t0\t0\tN\t0\t0\n");
        assert_eq!(number(&text, 7), answer, "{address}");
    }
}

#[test]
fn reset_is_3_at_last() {
    let start = "00C000\t0\t0\tN\t0\t0\n";
    assert_eq!(number("I\t00C000\t7\t00C000\n", 7), 3);
    for reset in ["00C001", "00BFFF", "01C000", "12C000", "FFC000"] {
        assert_eq!(number(&format!("I\t00C000\t7\t{reset}\n{start}"), 7), 3);
    }
    for line in [
        "00C000\t1\t0\tN\t0\t0",
        "00C000\t0\t1\tN\t0\t0",
        "00C000\t0\t0\tS\t0\t0",
    ] {
        assert_eq!(number(&format!("I\t00C000\t7\t00C000\n{line}\n"), 7), 3);
    }
    let last = "I\t00C000\t7\t00C006\n00C006\t0\t0\tN\t0\t0\n";
    assert_eq!(number(last, 7), 0);
}

/// The reader fills all marks, also where no start is.
#[test]
fn the_reader_fills_all_marks() {
    let mut marks = [0xFF; 3];
    let text = b"I\t00FFFF\t3\t010000\n010000\t0\t0\tN\t0\t0\n";
    assert_eq!(read_list(text, &mut marks), 0x1_0000 << 32 | 0xFFFF << 8);
    assert_eq!(marks, [0, 1, 0]);
}

/// The writer's number; the page must stay as given on a refusal.
fn written(marks: &[u8], base: u32, reset: u32, page: usize) -> u64 {
    let mut page = vec![0x55; page];
    let answer = write_list(marks, base, reset, &mut page);
    if answer & 0xFF != 0 {
        assert!(page.iter().all(|&b| b == 0x55));
        assert_eq!(answer >> 8, 0);
    }
    answer & 0xFF
}

#[test]
fn the_writer_refuses_in_order() {
    assert_eq!(written(&[], u32::MAX, 0, 0), 1);
    assert_eq!(written(&vec![1; 65_537], 0, 0, 0), 1);
    assert_eq!(written(&[0xFF; 4], 0xFFFFFD, 0, 0), 2);
    assert_eq!(written(&[0xFF; 4], 0x1000000, 0, 0), 2);
    assert_eq!(written(&[0xFF; 4], 0xFFFD, 0, 0), 4);
    assert_eq!(written(&[1, 0x80], 0xC000, 0xC001, 0), 4);
    assert_eq!(written(&[1, 1], 0xC000, 0xC002, 0), 3);
    assert_eq!(written(&[1, 1], 0xC000, 0x1C000, 0), 3);
    assert_eq!(written(&[1, 1], 0xC000, 0x100C000, 0), 3);
    assert_eq!(written(&[1, 1], 0x12C000, 0xC000, 0), 3);
    assert_eq!(written(&[3, 1], 0xC000, 0xC000, 0), 3);
    assert_eq!(written(&[1, 1], 0xC000, 0xC000, 0), 15);
    assert_eq!(written(&MARKS_1, 0xC000, 0xC000, CASE_1.len() - 1), 15);
    assert_eq!(written(&MARKS_1, 0xC000, 0xC000, CASE_1.len()), 0);
}

/// Lengths of 1 to 5 digits give lists of the right length.
#[test]
fn the_longest_list() {
    for length in [1usize, 9, 10, 99, 100, 999, 1000, 9999, 10_000, 65_536] {
        let marks = vec![1; length];
        let list = 17 + length.to_string().len() + 17 * length;
        let mut page = vec![0; list];
        let base = 0x4000;
        assert_eq!(
            write_list(&marks, base, base, &mut page),
            (list as u64) << 8
        );
        assert_eq!(written(&marks, base, base, list - 1), 15);
        let mut read = vec![0; length];
        assert_eq!(read_list(&page, &mut read), 0x4000 << 32 | 0x4000 << 8);
        assert_eq!(read, marks);
        assert!(list <= 1_114_134);
    }
}

/// Writing and reading back drawn markings.
#[test]
fn round_trips() {
    let mut rng = Rng::new(3);
    let mut done = 0;
    while done < 2_000 {
        let case = generate::accepted(&mut rng);
        let mut page = vec![0; 17 * case.marks.len() + 32];
        let answer = write_list(&case.marks, case.base, case.reset, &mut page);
        assert_eq!(answer & 0xFF, 0);
        let mut marks = vec![0xAA; case.marks.len()];
        let back = read_list(&page[..(answer >> 8) as usize], &mut marks);
        assert_eq!(back, (case.base as u64) << 8 | (case.reset as u64) << 32);
        assert_eq!(marks, case.marks);
        done += 1;
    }
}

/// Every byte of a list replaced by every other byte: what is still read
/// must be written back as the same text.
#[test]
fn a_read_list_is_the_only_text_of_its_marks() {
    for place in 0..CASE_1.len() {
        for byte in 0..=255 {
            let mut text = CASE_1.as_bytes().to_vec();
            text[place] = byte;
            let mut marks = [0xAA; 7];
            let answer = read_list(&text, &mut marks);
            match answer & 0xFF {
                0 => {
                    let (base, reset) = ((answer >> 8) as u32 & 0xFFFFFF, (answer >> 32) as u32);
                    let mut page = vec![0; text.len()];
                    let written = write_list(&marks, base, reset, &mut page);
                    assert_eq!(written, (text.len() as u64) << 8);
                    assert_eq!(page, text);
                }
                1 | 2 | 3 | 14 => assert_eq!(marks, [0xAA; 7]),
                other => panic!("number {other}"),
            }
        }
    }
}
