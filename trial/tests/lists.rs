//! The harness of the lists: planted differences are found, sweeps are wide.

use sim7700::generate::{read_case, write_case, ReadCase, Rng, WriteCase};
use std::slice::{from_raw_parts, from_raw_parts_mut};
use trial7700::lists::cases::{every_start, read_sweeps, write_sweeps};
use trial7700::lists::reader::{self, Reader};
use trial7700::lists::writer::{self, Writer};
use trial7700::tally::Tally;

type Bytes = *const u8;

/// The simulator in the library's place.
unsafe extern "C" fn read(text: Bytes, length: usize, marks: *mut u8, count: usize) -> u64 {
    let marks = from_raw_parts_mut(marks, count);
    sim7700::read_list(from_raw_parts(text, length), marks)
}

/// The lowest bit of the reset is turned where a list is read.
unsafe extern "C" fn turns_reset(t: Bytes, tl: usize, m: *mut u8, ml: usize) -> u64 {
    let answer = read(t, tl, m, ml);
    answer ^ (((answer & 0xFF == 0) as u64) << 32)
}

/// The last mark is changed where the answer is 3.
unsafe extern "C" fn writes_mark(t: Bytes, tl: usize, m: *mut u8, ml: usize) -> u64 {
    let answer = read(t, tl, m, ml);
    if answer == 3 {
        *m.add(ml - 1) = 0;
    }
    answer
}

/// The text's first byte is changed where the answer is 3.
unsafe extern "C" fn writes_text(t: Bytes, tl: usize, m: *mut u8, ml: usize) -> u64 {
    let answer = read(t, tl, m, ml);
    if answer == 3 {
        *t.cast_mut() = b'J';
    }
    answer
}

/// A byte in front of the marks is changed where the answer is 3.
unsafe extern "C" fn writes_in_front(t: Bytes, tl: usize, m: *mut u8, ml: usize) -> u64 {
    let answer = read(t, tl, m, ml);
    if answer == 3 {
        *m.sub(1) ^= 1;
    }
    answer
}

/// The simulator in the library's place.
unsafe extern "C" fn write(m: Bytes, ml: usize, b: u32, r: u32, p: *mut u8, pl: usize) -> u64 {
    sim7700::write_list(from_raw_parts(m, ml), b, r, from_raw_parts_mut(p, pl))
}

/// The length is one too high where a list is written.
unsafe extern "C" fn counts_on(m: Bytes, ml: usize, b: u32, r: u32, p: *mut u8, pl: usize) -> u64 {
    let answer = write(m, ml, b, r, p, pl);
    answer + (((answer & 0xFF == 0) as u64) << 8)
}

/// A short page is begun all the same.
unsafe extern "C" fn begins(m: Bytes, ml: usize, b: u32, r: u32, p: *mut u8, pl: usize) -> u64 {
    let answer = write(m, ml, b, r, p, pl);
    if answer == 15 && pl > 0 {
        *p = b'I';
    }
    answer
}

/// The byte behind the list is changed where the page has one.
unsafe extern "C" fn ends_late(m: Bytes, ml: usize, b: u32, r: u32, p: *mut u8, pl: usize) -> u64 {
    let answer = write(m, ml, b, r, p, pl);
    if answer & 0xFF == 0 && (answer >> 8) < pl as u64 {
        *p.add((answer >> 8) as usize) = 0;
    }
    answer
}

/// The first mark is changed where a list is written.
unsafe extern "C" fn clears(m: Bytes, ml: usize, b: u32, r: u32, p: *mut u8, pl: usize) -> u64 {
    let answer = write(m, ml, b, r, p, pl);
    if answer & 0xFF == 0 {
        *m.cast_mut() ^= 0x80;
    }
    answer
}

/// Differences in just those of the drawn reads that were planted.
fn found_in_reads(call: reader::Call, planted: impl Fn(u64) -> bool) -> usize {
    let mut rng = Rng::new(3);
    let mut subject = Reader::new(call);
    let differs = |case: &ReadCase| subject.compare(case).is_err();
    let cases: Vec<ReadCase> = (0..20_000).map(|_| read_case(&mut rng)).collect();
    let found: Vec<bool> = cases.iter().map(differs).collect();
    let wanted: Vec<bool> = cases.iter().map(|case| planted(case.answer().0)).collect();
    assert!(found == wanted);
    found.iter().filter(|&&is| is).count()
}

/// Differences in just those of the drawn writes that were planted.
fn found_in_writes(call: writer::Call, planted: impl Fn(u64, usize) -> bool) -> usize {
    let mut rng = Rng::new(3);
    let mut subject = Writer::new(call);
    let differs = |case: &WriteCase| subject.compare(case).is_err();
    let cases: Vec<WriteCase> = (0..20_000).map(|_| write_case(&mut rng)).collect();
    let found: Vec<bool> = cases.iter().map(differs).collect();
    let wanted = |case: &WriteCase| planted(case.answer().0, case.page_len);
    assert!(found == cases.iter().map(wanted).collect::<Vec<bool>>());
    found.iter().filter(|&&is| is).count()
}

#[test]
fn the_same_lists_differ_nowhere() {
    assert_eq!(found_in_reads(read, |_| false), 0);
    assert_eq!(found_in_writes(write, |_, _| false), 0);
}

#[test]
fn another_answer_is_found() {
    assert!(found_in_reads(turns_reset, |answer| answer & 0xFF == 0) > 1_000);
    assert!(found_in_writes(counts_on, |answer, _| answer & 0xFF == 0) > 1_000);
}

#[test]
fn a_written_byte_is_found() {
    for call in [writes_mark as reader::Call, writes_text, writes_in_front] {
        assert!(found_in_reads(call, |answer| answer == 3) > 20);
    }
    let begun = |answer, page_len| answer == 15 && page_len > 0;
    assert!(found_in_writes(begins, begun) > 1_000);
    let longer = |answer, page_len| answer & 0xFF == 0 && (answer >> 8) < page_len as u64;
    assert!(found_in_writes(ends_late, longer) > 1_000);
    assert!(found_in_writes(clears, |answer, _| answer & 0xFF == 0) > 1_000);
}

#[test]
fn a_difference_shows_the_case() {
    let case = ReadCase {
        text: b"I\t00C000\t1\tC000\n".to_vec(),
        marks_len: 1,
    };
    let shown = Reader::new(writes_mark).compare(&case).unwrap_err();
    let wanted = "marks after the call: 00\n  marks of 1 bytes\n  \
                  text, 16 bytes: I\\t00C000\\t1\\tC000\\n";
    assert_eq!(shown, wanted);
    let case = WriteCase {
        marks: vec![0x01],
        base: 0xC000,
        reset: 0xC000,
        page_len: 1,
    };
    let shown = Writer::new(begins).compare(&case).unwrap_err();
    let wanted = "page after the call: 49\n  base 00C000, reset 00C000\n  \
                  page of 1 bytes\n  marks, 1 bytes: 01";
    assert_eq!(shown, wanted);
}

#[test]
fn sweeps_meet_every_number() {
    let mut reads = Tally::new(&reader::NUMBERS);
    read_sweeps(|case| reads.note(Ok(case.answer().0 as u8)));
    assert!(reads.missing().is_empty());
    let mut writes = Tally::new(&writer::NUMBERS);
    write_sweeps(|case| writes.note(Ok(case.answer().0 as u8)));
    assert!(writes.missing().is_empty());
}

#[test]
fn the_longest_list_is_read_back() {
    let marked = every_start(&mut Rng::new(5), 65_536);
    let case = ReadCase {
        text: marked.list(),
        marks_len: 65_536,
    };
    assert_eq!(case.text.len(), 22 + 17 * 65_536);
    assert_eq!(case.answer().1, marked.marks);
}
